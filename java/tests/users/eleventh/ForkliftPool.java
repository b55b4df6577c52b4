// judged with: --public --infer
package com.example.eleventh;

import java.util.ArrayDeque;
import java.util.Deque;
import java.util.HashSet;
import java.util.Optional;
import java.util.Set;
import java.util.concurrent.TimeUnit;
import java.util.concurrent.locks.Condition;
import java.util.concurrent.locks.ReentrantLock;
import java.util.function.Function;

/** The forklifts of one warehouse; drivers take one and bring it back. */
public class ForkliftPool {

    public static final class Forklift {
        private final int number;
        private volatile int trips;

        private Forklift(int number) { this.number = number; }
        public int number() { return number; } // accepted
        public void drive() { trips++; } // refused: fault: ++ on a volatile: two drivers both read 4 and both write 5
        public int trips() { return trips; } // accepted
    }

    private final ReentrantLock lock = new ReentrantLock();
    private final Condition available = lock.newCondition();
    private final Deque<Forklift> parked = new ArrayDeque<>();
    private final Set<Forklift> busy = new HashSet<>();
    private int limit;
    private int bought;

    public ForkliftPool(int limit) { this.limit = limit; }

    public Forklift acquire() throws InterruptedException { // accepted
        lock.lockInterruptibly();
        try {
            while (parked.isEmpty() && bought >= limit) {
                available.await();
            }
            return checkOut();
        } finally {
            lock.unlock();
        }
    }

    public Optional<Forklift> acquire(long timeout, TimeUnit unit) throws InterruptedException { // accepted
        long nanos = unit.toNanos(timeout);
        lock.lockInterruptibly();
        try {
            while (parked.isEmpty() && bought >= limit) {
                if (nanos <= 0) return Optional.empty();
                nanos = available.awaitNanos(nanos);
            }
            return Optional.of(checkOut());
        } finally {
            lock.unlock();
        }
    }

    /** Takes a parked forklift if there is one, but buys none. */
    public Optional<Forklift> tryAcquire() { // refused: fault: parkedCount() is looked at outside the lock and not checked again: T1 sees one parked, T2 acquires it, T1's checkOut() buys a new one, even above the limit, though tryAcquire should return empty
        if (parkedCount() == 0) return Optional.empty();
        lock.lock();
        try {
            return Optional.of(checkOut());
        } finally {
            lock.unlock();
        }
    }

    public void release(Forklift lift) { // accepted
        lock.lock();
        try {
            if (!busy.remove(lift)) {
                throw new IllegalArgumentException("not in use: " + lift.number());
            }
            parked.push(lift);
            available.signal();
        } finally {
            lock.unlock();
        }
    }

    public <R> R using(Function<? super Forklift, ? extends R> job) throws InterruptedException { // refused: fault: acquire, job and release are separate regions by design: while the job runs T2 sees one forklift fewer in parkedCount() and may block in acquire()
        Forklift lift = acquire();
        try {
            return job.apply(lift);
        } finally {
            release(lift);
        }
    }

    public void resize(int newLimit) { // accepted
        lock.lock();
        try {
            limit = newLimit;
            available.signalAll();
        } finally {
            lock.unlock();
        }
    }

    public int limit() { return limit; } // refused: fault: one look at a field without its lock

    public int parkedCount() { return parked.size(); } // refused: fault: ArrayDeque.size() without the lock combines head, tail and the length of the array: while T2's release() grows the array T1 computes a count that never was; also a data race

    public double utilisation() { // accepted
        lock.lock();
        try {
            return bought == 0 ? 0.0 : (double) busy.size() / bought;
        } finally {
            lock.unlock();
        }
    }

    private Forklift checkOut() {
        Forklift lift = parked.isEmpty() ? new Forklift(++bought) : parked.pop();
        busy.add(lift);
        return lift;
    }
}
