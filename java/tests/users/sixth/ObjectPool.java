// judged with: --public --infer
package com.example.sixth;

import java.util.ArrayDeque;
import java.util.Collections;
import java.util.Deque;
import java.util.IdentityHashMap;
import java.util.Optional;
import java.util.Set;
import java.util.concurrent.TimeUnit;
import java.util.function.Function;
import java.util.function.Supplier;

/** A bounded pool of reusable objects. */
public class ObjectPool<T> implements AutoCloseable {

    record Stats(int idle, int inUse) {
        int total() {
            return idle + inUse;
        }
    }

    private final int max;
    private final Supplier<? extends T> factory;
    private final Deque<T> idle = new ArrayDeque<>();
    private final Set<T> busy = Collections.newSetFromMap(new IdentityHashMap<>());
    private int created;
    private volatile boolean closed;

    public ObjectPool(int max, Supplier<? extends T> factory) {
        this.max = max;
        this.factory = factory;
    }

    public synchronized T acquire() throws InterruptedException { // accepted
        while (!closed && !canLend()) {
            wait();
        }
        if (closed) {
            throw new IllegalStateException("closed");
        }
        return lend();
    }

    public synchronized Optional<T> acquire(long timeout, TimeUnit unit) throws InterruptedException { // refused: alarm: one region, in which the factory is called
        long deadline = System.nanoTime() + unit.toNanos(timeout);
        while (!closed && !canLend()) {
            long remaining = deadline - System.nanoTime();
            if (remaining <= 0) {
                return Optional.empty();
            }
            TimeUnit.NANOSECONDS.timedWait(this, remaining);
        }
        return closed ? Optional.empty() : Optional.of(lend());
    }

    public synchronized Optional<T> tryAcquire() { // accepted
        return closed || !canLend() ? Optional.empty() : Optional.of(lend());
    }

    public synchronized void release(T item) { // accepted
        if (!busy.remove(item)) {
            throw new IllegalArgumentException("not lent by this pool");
        }
        if (!closed) {
            idle.push(item);
        }
        notifyAll();
    }

    public <R> R use(Function<? super T, ? extends R> action) throws InterruptedException { // refused: fault: acquire, action and release are separate: while the action runs another thread's inUse() returns 1 (tryAcquire() on a pool of one is empty), which a use() at one point never shows
        T item = acquire();
        try {
            return action.apply(item);
        } finally {
            release(item);
        }
    }

    public synchronized int idle() { // accepted
        return idle.size();
    }

    public synchronized int inUse() { // accepted
        return busy.size();
    }

    public Stats stats() { // refused: fault: two regions: idle() gives 1, another thread's acquire() takes that object, inUse() gives 1: a total of 2 in a pool that only ever had one object
        return new Stats(idle(), inUse());
    }

    public int created() { // refused: fault: one look at a field without its lock
        return created;
    }

    public void warmUp(int n) { // refused: fault: one region per object: warmUp(2) on an empty pool, another thread's idle() returns 1
        for (int i = 0; i < n; i++) {
            synchronized (this) {
                if (closed || idle.size() + busy.size() >= max) {
                    return;
                }
                idle.addLast(make());
                notifyAll();
            }
        }
    }

    public synchronized int shrink() { // accepted
        int dropped = idle.size();
        idle.clear();
        notifyAll();
        return dropped;
    }

    public void shrinkTo(int keep) { // refused: fault: idle() says 2 with keep 0, another thread's acquire() or shrink() takes from the idle ones, removeLast() throws NoSuchElementException (or more are dropped than wanted)
        int surplus = idle() - keep;
        for (int i = 0; i < surplus; i++) {
            synchronized (this) {
                idle.removeLast();
            }
        }
    }

    public boolean isClosed() { // accepted
        return closed;
    }

    @Override
    public synchronized void close() { // accepted
        closed = true;
        idle.clear();
        notifyAll();
    }

    private boolean canLend() {
        return !idle.isEmpty() || busy.size() < max;
    }

    private T lend() {
        T item = idle.isEmpty() ? make() : idle.pop();
        busy.add(item);
        return item;
    }

    private T make() {
        T item = factory.get();
        created++;
        return item;
    }
}
