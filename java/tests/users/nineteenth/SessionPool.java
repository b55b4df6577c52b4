// judged with: --public --infer
package com.example.nineteenth;

import java.util.ArrayDeque;
import java.util.ArrayList;
import java.util.Collections;
import java.util.Deque;
import java.util.IdentityHashMap;
import java.util.List;
import java.util.Optional;
import java.util.Set;
import java.util.function.Consumer;
import java.util.function.Function;
import java.util.function.Supplier;

/**
 * Pool of remote sessions, created on demand up to a maximum.
 */
public class SessionPool<S> {

    public record Stats(int idle, int leased, long borrows) { }

    private final Supplier<? extends S> factory;
    private final int max;
    private final Deque<S> idle = new ArrayDeque<>();
    private final Set<S> leased = Collections.newSetFromMap(new IdentityHashMap<>());
    private int created;
    private long borrows;

    public SessionPool(int max, Supplier<? extends S> factory) {
        this.max = max;
        this.factory = factory;
    }

    public synchronized S borrow() throws InterruptedException { // accepted
        while (idle.isEmpty() && created >= max) {
            wait();
        }
        return lease();
    }

    public synchronized Optional<S> tryBorrow() { // accepted
        if (idle.isEmpty() && created >= max) {
            return Optional.empty();
        }
        return Optional.of(lease());
    }

    public synchronized void release(S session) { // accepted
        if (!leased.remove(session)) {
            throw new IllegalArgumentException("not a leased session");
        }
        idle.addLast(session);
        notifyAll();
    }

    /** Lends a session to the task and takes it back afterwards. */
    public <R> R with(Function<? super S, ? extends R> task) throws InterruptedException { // refused: fault: two regions with an unknown task between: B's leasedCount() sees a session on loan that no uninterrupted run would show (meant so by design, but not atomic)
        S session = borrow();
        try {
            return task.apply(session);
        } finally {
            release(session);
        }
    }

    public void prefill(int target) { // refused: fault: A and B both see idleCount() one below the target and both add a session: more than target, and created can pass max
        while (idleCount() < target) {
            S session = factory.get();
            synchronized (this) {
                idle.addLast(session);
                created++;
                notifyAll();
            }
        }
    }

    /** Lets go of the idle sessions above the given number. */
    public int trim(int keep, Consumer<? super S> closer) { // refused: alarm: all of the own state is changed in one region; the unknown closer is called afterwards with no lock on a local list
        List<S> victims = new ArrayList<>();
        synchronized (this) {
            while (idle.size() > keep) {
                victims.add(idle.removeLast());
                created--;
            }
            notifyAll();
        }
        victims.forEach(closer);
        return victims.size();
    }

    public synchronized int idleCount() { // accepted
        return idle.size();
    }

    public synchronized int leasedCount() { // accepted
        return leased.size();
    }

    public double load() { // refused: fault: two regions: A reads 1 leased, B releases it, A reads 1 idle: load 0.5 though there is one session only, which was all leased or all idle
        int busy = leasedCount();
        int total = busy + idleCount();
        return total == 0 ? 0.0 : (double) busy / total;
    }

    public synchronized Stats stats() { // accepted
        return new Stats(idle.size(), leased.size(), borrows);
    }

    public synchronized void forEachLeased(Consumer<? super S> action) { // accepted
        for (S session : leased) {
            action.accept(session);
        }
    }

    private S lease() {
        S session = idle.pollFirst();
        if (session == null) {
            session = factory.get();
            created++;
        }
        leased.add(session);
        borrows++;
        return session;
    }
}
