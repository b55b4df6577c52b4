// judged with: --public --infer
package com.example.ninth;

import java.util.ArrayList;
import java.util.HashMap;
import java.util.List;
import java.util.Map;
import java.util.concurrent.CompletableFuture;
import java.util.concurrent.CopyOnWriteArrayList;
import java.util.concurrent.Executor;
import java.util.concurrent.atomic.AtomicReference;
import java.util.function.LongUnaryOperator;

/** Ledger that keeps its whole state in one immutable book. */
public class SettlementLedger {
    public record Entry(String account, long cents) { }

    public interface Listener {
        void posted(String account, long newBalance);
    }

    private record Book(Map<String, Long> balances, List<Entry> entries) {
        long balanceOf(String account) {
            return balances.getOrDefault(account, 0L);
        }

        Book plus(String account, long cents) {
            Map<String, Long> b = new HashMap<>(balances);
            b.merge(account, cents, Long::sum);
            List<Entry> e = new ArrayList<>(entries);
            e.add(new Entry(account, cents));
            return new Book(Map.copyOf(b), List.copyOf(e));
        }

        Book without(String account) {
            Map<String, Long> b = new HashMap<>(balances);
            b.remove(account);
            return new Book(Map.copyOf(b), entries.stream().filter(e -> !e.account().equals(account)).toList());
        }
    }

    private final AtomicReference<Book> book = new AtomicReference<>(new Book(Map.of(), List.of()));
    private final List<Listener> listeners = new CopyOnWriteArrayList<>();
    private final Executor executor;

    public SettlementLedger(Executor executor) {
        this.executor = executor;
    }

    public long post(String account, long cents) { // accepted
        return book.updateAndGet(b -> b.plus(account, cents)).balanceOf(account);
    }

    public boolean withdraw(String account, long cents) { // accepted
        while (true) {
            Book seen = book.get();
            if (seen.balanceOf(account) < cents) return false;
            if (book.compareAndSet(seen, seen.plus(account, -cents))) return true;
        }
    }

    public boolean transfer(String from, String to, long cents) { // refused: fault: between withdraw and post, total() of another thread sees the money missing; no order of whole calls gives that
        if (!withdraw(from, cents)) return false;
        post(to, cents);
        return true;
    }

    public boolean move(String from, String to, long cents) { // accepted
        Book before = book.getAndUpdate(b ->
                b.balanceOf(from) < cents ? b : b.plus(from, -cents).plus(to, cents));
        return before.balanceOf(from) >= cents;
    }

    public long deposit(String account, long cents) { // refused: fault: two deposits of 10: A posts (10), B posts (20) and tells its listeners 20, then A tells 10; the listener sees balance 20 before 10, in whole calls always 10 before 20 (also balance() sees the post before the listeners are told)
        long balance = post(account, cents);
        listeners.forEach(l -> l.posted(account, balance));
        return balance;
    }

    public CompletableFuture<Long> postAsync(String account, long cents) { // refused: fault: it only hands one atomic post to the executor; the effect comes after the return, also when alone (whether that counts depends on the executor)
        return CompletableFuture.supplyAsync(() -> post(account, cents), executor);
    }

    public void adjust(String account, LongUnaryOperator rule) { // refused: fault: post(a,10) between get and set is overwritten: post returned 10, afterwards balance(a) lacks it
        Book b = book.get();
        long old = b.balanceOf(account);
        book.set(b.plus(account, rule.applyAsLong(old) - old));
    }

    public void closeAccount(String account) { // refused: fault: balance 0 seen, then post(a,100) returns 100, then the account is removed: balance(a) is 0 although a whole closeAccount either runs before the post or leaves the account alone
        if (balance(account) == 0) {
            book.updateAndGet(b -> b.without(account));
        }
    }

    public long balance(String account) { // accepted
        return book.get().balanceOf(account);
    }

    public long total() { // accepted
        return book.get().balances().values().stream().mapToLong(Long::longValue).sum();
    }

    public boolean reconciled() { // refused: fault: post(a,5) between the two reads of the book: total without, entries with the 5, returns false; in whole calls always true
        return total() == book.get().entries().stream().mapToLong(Entry::cents).sum();
    }

    public List<Entry> history(String account) { // accepted
        return book.get().entries().stream().filter(e -> e.account().equals(account)).toList();
    }

    public void subscribe(Listener listener) { // accepted
        listeners.add(listener);
    }
}
