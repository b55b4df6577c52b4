// judged with: --public --infer
package com.example.first;

import java.util.*;
import java.util.concurrent.TimeUnit;
import java.util.concurrent.locks.Condition;
import java.util.concurrent.locks.ReentrantLock;
import java.util.function.Function;
import java.util.function.Supplier;

public class ConnectionPool {
    public interface Conn { void close(); }

    public record Stats(int idle, int leased, int total) { }

    private final ReentrantLock lock = new ReentrantLock(true);
    private final Condition available = lock.newCondition();
    private final Deque<Conn> idle = new ArrayDeque<>();
    private final Set<Conn> leased = Collections.newSetFromMap(new IdentityHashMap<>());
    private final Supplier<? extends Conn> factory;
    private int total;
    private int max;
    private volatile boolean closed;

    public ConnectionPool(Supplier<? extends Conn> factory, int max) {
        this.factory = factory;
        this.max = max;
    }

    /** Waits for an idle connection; never makes a new one. */
    public Conn takeIdle(long timeout, TimeUnit unit) throws InterruptedException { // refused: alarm: nothing is changed before the wait
        long nanos = unit.toNanos(timeout);
        lock.lockInterruptibly();
        try {
            while (idle.isEmpty() && !closed) {
                if (nanos <= 0) return null;
                nanos = available.awaitNanos(nanos);
            }
            if (closed) throw new IllegalStateException("closed");
            return lend(idle.pop());
        } finally { lock.unlock(); }
    }

    public Conn borrow() throws InterruptedException { // refused: fault: on the path that makes a connection total++ and lend are in two critical sections
        lock.lock();
        try {
            while (idle.isEmpty() && total >= max && !closed) available.await();
            if (closed) throw new IllegalStateException("closed");
            if (!idle.isEmpty()) return lend(idle.pop());
            total++;
        } finally { lock.unlock(); }
        Conn made = factory.get();
        lock.lock();
        try { return lend(made); } finally { lock.unlock(); }
    }

    public void release(Conn c) { // accepted
        lock.lock();
        try {
            if (!leased.remove(c)) throw new IllegalArgumentException("not ours: " + c);
            idle.push(c);
            available.signal();
        } finally { lock.unlock(); }
    }

    public <T> T with(Function<? super Conn, T> work) throws InterruptedException { // refused: fault: borrow, the user's work and release are separate
        Conn c = borrow();
        try { return work.apply(c); } finally { release(c); }
    }

    /** Drops idle connections until at most keep are left; closes them without holding up anyone. */
    public int trim(int keep) { // refused: alarm: all of the pool's state changes in one critical section
        List<Conn> victims = new ArrayList<>();
        lock.lock();
        try {
            while (idle.size() > keep) {
                victims.add(idle.removeLast());
                total--;
            }
            available.signalAll();
        } finally { lock.unlock(); }
        victims.forEach(Conn::close);
        return victims.size();
    }

    public void setMax(int newMax) { // accepted
        lock.lock();
        try {
            max = newMax;
            available.signalAll();
        } finally { lock.unlock(); }
    }

    public boolean isSaturated() { // accepted
        return locked(() -> activeCount() >= max && idleCount() == 0);
    }

    public int activeCount() { return locked(leased::size); } // accepted
    public int idleCount() { return locked(idle::size); } // accepted

    public double utilisation() { // refused: fault: two critical sections
        int active = activeCount();
        int all = active + idleCount();
        return all == 0 ? 0.0 : (double) active / all;
    }

    public Stats stats() { return locked(() -> new Stats(idle.size(), leased.size(), total)); } // accepted
    public boolean isClosed() { return closed; } // accepted
    public void shutdown() { // refused: fault: closed is set before and outside of the critical section of trim
        closed = true;
        trim(0);
    }

    private Conn lend(Conn c) {
        leased.add(c);
        return c;
    }

    private <T> T locked(Supplier<T> body) {
        lock.lock();
        try { return body.get(); } finally { lock.unlock(); }
    }
}
