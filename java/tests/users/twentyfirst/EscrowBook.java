// judged with: --public --infer
package com.example.twentyfirst;

import java.math.BigDecimal;
import java.util.HashMap;
import java.util.Map;
import java.util.NoSuchElementException;
import java.util.Optional;
import java.util.concurrent.atomic.AtomicReference;
import java.util.function.UnaryOperator;

/**
 * Money of buyers, held until the seller delivers. The whole book is one immutable value.
 */
public class EscrowBook {

    public enum Status { HELD, RELEASED, REFUNDED }

    public record Deal(String buyer, String seller, BigDecimal amount, Status status) {
        Deal as(Status next) {
            return new Deal(buyer, seller, amount, next);
        }
    }

    private record Book(Map<String, BigDecimal> funds, Map<Long, Deal> deals, long lastId) {

        Book withFunds(String who, BigDecimal delta) {
            Map<String, BigDecimal> next = new HashMap<>(funds);
            next.merge(who, delta, BigDecimal::add);
            return new Book(Map.copyOf(next), deals, lastId);
        }

        Book withDeal(long id, Deal deal) {
            Map<Long, Deal> next = new HashMap<>(deals);
            next.put(id, deal);
            return new Book(funds, Map.copyOf(next), Math.max(id, lastId));
        }

        BigDecimal of(String who) {
            return funds.getOrDefault(who, BigDecimal.ZERO);
        }

        Deal held(long id) {
            Deal deal = deals.get(id);
            if (deal == null || deal.status() != Status.HELD) {
                throw new NoSuchElementException("no held deal " + id);
            }
            return deal;
        }
    }

    private final AtomicReference<Book> book = new AtomicReference<>(new Book(Map.of(), Map.of(), 0));
    private volatile BigDecimal fees = BigDecimal.ZERO;

    public void deposit(String who, BigDecimal amount) { // accepted
        book.updateAndGet(b -> b.withFunds(who, amount));
    }

    public BigDecimal funds(String who) { // accepted
        return book.get().of(who);
    }

    public boolean withdraw(String who, BigDecimal amount) { // refused: fault: get then set: A reads the book, B deposits, A sets a book without B's deposit (or both withdraw the same money)
        Book b = book.get();
        if (b.of(who).compareTo(amount) < 0) {
            return false;
        }
        book.set(b.withFunds(who, amount.negate()));
        return true;
    }

    public long open(String buyer, String seller, BigDecimal amount) { // refused: alarm: compareAndSet loop, everything worked out again from the book that is read
        while (true) {
            Book b = book.get();
            if (b.of(buyer).compareTo(amount) < 0) {
                throw new IllegalStateException("not enough funds");
            }
            long id = b.lastId() + 1;
            Book next = b.withFunds(buyer, amount.negate())
                    .withDeal(id, new Deal(buyer, seller, amount, Status.HELD));
            if (book.compareAndSet(b, next)) {
                return id;
            }
        }
    }

    public void refund(long id) { // refused: alarm: one updateAndGet
        book.updateAndGet(b -> {
            Deal deal = b.held(id);
            return b.withDeal(id, deal.as(Status.REFUNDED)).withFunds(deal.buyer(), deal.amount());
        });
    }

    public void release(long id, BigDecimal fee) { // refused: fault: fees = fees.add(fee) on a volatile: A and B read the same fees, one fee is lost; B also sees the deal released and the fee not yet there
        book.updateAndGet(b -> {
            Deal deal = b.held(id);
            return b.withDeal(id, deal.as(Status.RELEASED))
                    .withFunds(deal.seller(), deal.amount().subtract(fee));
        });
        fees = fees.add(fee);
    }

    public Optional<Deal> deal(long id) { // accepted
        return Optional.ofNullable(book.get().deals().get(id));
    }

    public BigDecimal fees() { // accepted
        return fees;
    }

    /** All of the money in the book: funds and held deals. */
    public BigDecimal total() { // refused: fault: two gets: A adds the buyer's 100 of funds, B opens a deal with them, A adds the held deal of 100: total 200 of 100
        BigDecimal free = book.get().funds().values().stream().reduce(BigDecimal.ZERO, BigDecimal::add);
        return book.get().deals().values().stream()
                .filter(d -> d.status() == Status.HELD)
                .map(Deal::amount)
                .reduce(free, BigDecimal::add);
    }

    public Map<Long, Deal> deals() { // accepted
        return book.get().deals();
    }

    /** Lets the bookkeeper correct the funds of everyone. */
    public void revalue(UnaryOperator<BigDecimal> correction) { // refused: doubtful: the own state changes in one compareAndSet, so atomic as far as that goes; but the unknown correction is called with no lock and may be run again when another thread was faster, which it can notice
        book.updateAndGet(b -> {
            Map<String, BigDecimal> next = new HashMap<>(b.funds());
            next.replaceAll((who, amount) -> correction.apply(amount));
            return new Book(Map.copyOf(next), b.deals(), b.lastId());
        });
    }
}
