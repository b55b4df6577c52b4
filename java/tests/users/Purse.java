package com.example.purse;

import java.util.ArrayList;
import java.util.Collections;
import java.util.EnumMap;
import java.util.List;
import java.util.Map;
import java.util.concurrent.locks.Lock;
import java.util.concurrent.locks.ReentrantLock;
import java.util.function.LongUnaryOperator;
import java.util.function.Supplier;

/** Money in several currencies. Each method runs under one lock, which a helper takes. */
// judged with: --public --infer
public final class Purse {

    /** What money is counted in. */
    public enum Currency {
        EUR(100), USD(100), JPY(1);

        private final int parts;

        Currency(int parts) {
            this.parts = parts;
        }

        public int parts() { // accepted
            return parts;
        }
    }

    /** One change of the purse. */
    public record Move(Currency currency, long amount) {
        public Move {
            if (amount == 0) {
                throw new IllegalArgumentException("nothing moves");
            }
        }

        public Move back() { // accepted
            return new Move(currency, -amount);
        }
    }

    private static int purses;
    private final Lock lock = new ReentrantLock();
    private final Map<Currency, Long> amounts = new EnumMap<>(Currency.class);
    private final List<Move> moves = new ArrayList<>();
    private boolean locked;

    private Purse() {
    }

    public static synchronized Purse create() { // accepted
        purses++;
        return new Purse();
    }

    public static synchronized int purses() { // accepted
        return purses;
    }

    private <T> T exclusively(Supplier<T> work) {
        lock.lock();
        try {
            return work.get();
        } finally {
            lock.unlock();
        }
    }

    private void exclusively(Runnable work) {
        lock.lock();
        try {
            work.run();
        } finally {
            lock.unlock();
        }
    }

    private void move(Move move) {
        amounts.merge(move.currency(), move.amount(), Long::sum);
        moves.add(move);
    }

    public long amount(Currency currency) { // accepted
        return exclusively(() -> amounts.getOrDefault(currency, 0L));
    }

    public void put(Currency currency, long amount) { // accepted
        exclusively(() -> move(new Move(currency, amount)));
    }

    public boolean take(Currency currency, long amount) { // accepted
        return exclusively(() -> {
            if (locked || amounts.getOrDefault(currency, 0L) < amount) {
                return false;
            }
            move(new Move(currency, -amount));
            return true;
        });
    }

    public boolean takeAll(Map<Currency, Long> wanted) { // refused: fault: one region for each currency
        return wanted.entrySet().stream().allMatch(each -> take(each.getKey(), each.getValue()));
    }

    public void exchange(Currency from, Currency into, long amount, double rate) { // accepted
        exclusively(() -> {
            move(new Move(from, -amount));
            move(new Move(into, Math.round(amount * rate)));
        });
    }

    public void change(Currency currency, LongUnaryOperator change) { // accepted
        exclusively(() -> {
            long old = amounts.getOrDefault(currency, 0L);
            amounts.put(currency, change.applyAsLong(old));
        });
    }

    public void undo() { // accepted
        exclusively(() -> {
            if (!moves.isEmpty()) {
                Move last = moves.remove(moves.size() - 1).back();
                amounts.merge(last.currency(), last.amount(), Long::sum);
            }
        });
    }

    public List<Move> moves() { // accepted
        return exclusively(() -> List.copyOf(moves));
    }

    public List<Move> sorted() { // refused: alarm: the list is a copy of its own, which the helper gives back
        List<Move> all = new ArrayList<>(moves());
        Collections.sort(all, (one, other) -> Long.compare(one.amount(), other.amount()));
        return all;
    }

    public boolean isEmpty() { // accepted
        return exclusively(() -> amounts.values().stream().allMatch(each -> each == 0));
    }

    public void shut(boolean shut) { // accepted
        exclusively(() -> {
            locked = shut;
        });
    }

    public boolean canTake(Currency currency, long amount) { // refused: fault: two regions
        return !exclusively(() -> locked) && amount(currency) >= amount;
    }
}
