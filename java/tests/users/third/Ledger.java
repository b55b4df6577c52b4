// judged with: --public --infer
package com.example.third;

import java.util.*;
import java.util.concurrent.CopyOnWriteArrayList;
import java.util.function.BiConsumer;

/** Balances as an immutable map that's replaced as a whole; writers are synchronized, readers take no lock. */
public class Ledger {
    public enum Outcome { DONE, DUPLICATE, UNKNOWN, NO_FUNDS }

    @interface GuardedBy { String value(); }

    public sealed interface Command permits Open, Deposit, Transfer { }
    public record Open(String id) implements Command { }
    public record Deposit(String id, long cents) implements Command { }
    public record Transfer(String from, String to, long cents) implements Command { }

    private volatile Map<String, Long> book = Map.of();
    @GuardedBy("this") private final Deque<Command> audit = new ArrayDeque<>();
    private final List<BiConsumer<Command, Map<String, Long>>> listeners = new CopyOnWriteArrayList<>();

    public synchronized Outcome execute(Command c) { // accepted
        Map<String, Long> next = new HashMap<>(book);
        Outcome o = apply(next, c);
        if (o == Outcome.DONE) {
            audit.addLast(c);
            book = Map.copyOf(next);
        }
        return o;
    }

    /** All or nothing. */
    public synchronized Outcome executeBatch(List<? extends Command> cs) { // accepted
        Map<String, Long> next = new HashMap<>(book);
        for (Command c : cs) {
            Outcome o = apply(next, c);
            if (o != Outcome.DONE) return o;
        }
        audit.addAll(cs);
        book = Map.copyOf(next);
        return Outcome.DONE;
    }

    public List<Outcome> executeEach(List<? extends Command> cs) { // refused: fault: one execute per command
        List<Outcome> out = new ArrayList<>();
        cs.forEach(c -> out.add(execute(c)));
        return out;
    }

    public Outcome executeAndTell(Command c) { // refused: fault: the listeners are called after the critical section and with a fresh read of book
        Outcome o = execute(c);
        if (o == Outcome.DONE) listeners.forEach(l -> l.accept(c, book));
        return o;
    }

    public Outcome sweep(String from, String to) { // accepted
        synchronized (this) {
            return execute(new Transfer(from, to, balance(from)));
        }
    }

    public void topUp(String id, long floor) { // refused: fault: check-then-act
        long now = balance(id);
        if (now < floor) execute(new Deposit(id, floor - now));
    }

    public long balance(String id) { // accepted
        return book.getOrDefault(id, 0L);
    }

    public long total() { // accepted
        return book.values().stream().mapToLong(Long::longValue).sum();
    }

    public double share(String id) { // refused: fault: book is read twice
        long total = total();
        return total == 0 ? 0 : (double) balance(id) / total;
    }

    public Optional<String> richest() { // refused: alarm: one volatile read of an immutable map
        return book.entrySet().stream().max(Map.Entry.comparingByValue()).map(Map.Entry::getKey);
    }

    public Map<String, Long> balances() { // accepted
        return book;
    }

    public boolean bothOpen(String a, String b) { // refused: certain: no account is taken out of the book again, which is not seen
        return book.containsKey(a) && book.containsKey(b);
    }

    public synchronized List<Command> audit() { // accepted
        return List.copyOf(audit);
    }

    public synchronized boolean consistent() { // accepted
        Map<String, Long> replayed = new HashMap<>();
        audit.forEach(c -> apply(replayed, c));
        return replayed.equals(book);
    }

    public void listen(BiConsumer<Command, Map<String, Long>> l) { // accepted
        listeners.add(l);
    }

    private static Outcome apply(Map<String, Long> m, Command c) {
        if (c instanceof Open o) return m.putIfAbsent(o.id(), 0L) == null ? Outcome.DONE : Outcome.DUPLICATE;
        if (c instanceof Deposit d) return m.computeIfPresent(d.id(), (k, v) -> v + d.cents()) != null ? Outcome.DONE : Outcome.UNKNOWN;
        Transfer t = (Transfer) c;
        if (!m.containsKey(t.from()) || !m.containsKey(t.to())) return Outcome.UNKNOWN;
        if (m.get(t.from()) < t.cents()) return Outcome.NO_FUNDS;
        m.merge(t.from(), -t.cents(), Long::sum);
        m.merge(t.to(), t.cents(), Long::sum);
        return Outcome.DONE;
    }
}
