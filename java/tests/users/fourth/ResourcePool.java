// judged with: --public --infer
package com.example.fourth;

import java.util.ArrayDeque;
import java.util.ArrayList;
import java.util.Collection;
import java.util.Collections;
import java.util.Deque;
import java.util.List;
import java.util.concurrent.locks.Condition;
import java.util.concurrent.locks.ReentrantLock;
import java.util.function.Consumer;
import java.util.function.Supplier;

/** A pool of up to max resources, which are made when first needed. */
public final class ResourcePool<R> implements AutoCloseable {
    public record Stats(int idle, int live, int waiting) { }

    private final Supplier<? extends R> factory;
    private final Consumer<? super R> destroyer;
    private final int max;
    private final ReentrantLock lock = new ReentrantLock();
    private final Condition changed = lock.newCondition();
    private final Deque<R> idle = new ArrayDeque<>();
    private int live;
    private int waiting;
    private boolean shut;

    public ResourcePool(int max, Supplier<? extends R> factory, Consumer<? super R> destroyer) {
        this.max = max;
        this.factory = factory;
        this.destroyer = destroyer;
    }

    public Lease borrow() { // refused: fault: `waiting++` before the wait is seen by others
        lock.lock();
        try {
            waiting++;
            while (!shut && idle.isEmpty() && live >= max) changed.awaitUninterruptibly();
            waiting--;
            return leaseOrNull();
        } finally { lock.unlock(); }
    }

    /** @return a lease, or null if none is free now */
    public Lease tryBorrow() { // accepted
        lock.lock();
        try { return leaseOrNull(); } finally { lock.unlock(); }
    }

    public void awaitQuiet() throws InterruptedException { // accepted
        lock.lock();
        try { while (live > idle.size()) changed.await(); } finally { lock.unlock(); }
    }

    public int idleCount() { return stats().idle(); } // accepted
    public int liveCount() { return stats().live(); } // accepted
    public double utilisation() { return (double) (liveCount() - idleCount()) / max; } // refused: fault: two critical sections

    public Stats stats() { // accepted
        lock.lock();
        try { return new Stats(idle.size(), live, waiting); } finally { lock.unlock(); }
    }

    public Collection<R> idleResources() { return Collections.unmodifiableCollection(idle); } // refused: fault: it hands out a live view of the guarded deque: a cl

    /** Destroys idle resources until at most keep are left. */
    public void trim(int keep) { // refused: fault: check-then-act over two critical sections, many rounds
        while (idleCount() > keep) {
            R victim;
            lock.lock();
            try {
                victim = idle.pollLast();
                live--;
            } finally { lock.unlock(); }
            destroyer.accept(victim);
        }
    }

    @Override public void close() { // refused: alarm: one critical section (copy, clear, signal)
        List<R> doomed;
        lock.lock();
        try {
            shut = true;
            doomed = new ArrayList<>(idle);
            idle.clear();
            live -= doomed.size();
            changed.signalAll();
        } finally { lock.unlock(); }
        doomed.forEach(destroyer);
    }

    private Lease leaseOrNull() {
        if (shut) throw new IllegalStateException("pool is shut");
        R r = idle.pollFirst();
        if (r == null && live == max) return null;
        if (r == null) {
            r = factory.get();
            live++;
        }
        return new Lease(r);
    }

    /** A borrowed resource; close gives it back, a second close does nothing. */
    public final class Lease implements AutoCloseable {
        private final R resource;
        private volatile boolean done;
        private Lease(R resource) { this.resource = resource; }

        public R get() { return done ? null : resource; } // accepted

        @Override public void close() { // accepted
            if (done) return;
            lock.lock();
            try {
                if (done) return;
                done = true;
                idle.addFirst(resource);
                changed.signalAll();
            } finally { lock.unlock(); }
        }
    }
}
