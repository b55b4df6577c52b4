// judged with: --public --infer
package com.example.nineteenth;

import java.util.ArrayList;
import java.util.Collection;
import java.util.Iterator;
import java.util.List;
import java.util.Objects;
import java.util.concurrent.TimeUnit;
import java.util.concurrent.locks.Condition;
import java.util.concurrent.locks.ReentrantLock;

/**
 * Bounded ring between the acquisition thread and the file writers.
 */
public class SampleRing<T> implements Iterable<T> {

    private final Object[] slots;
    private final ReentrantLock lock = new ReentrantLock();
    private final Condition notEmpty = lock.newCondition();
    private final Condition notFull = lock.newCondition();
    private int head;
    private int count;
    private long dropped;
    private boolean closed;

    public SampleRing(int capacity) {
        this.slots = new Object[capacity];
    }

    public void put(T item) throws InterruptedException { // accepted
        Objects.requireNonNull(item);
        lock.lockInterruptibly();
        try {
            while (count == slots.length && !closed) {
                notFull.await();
            }
            if (closed) {
                throw new IllegalStateException("ring is closed");
            }
            enqueue(item);
        } finally {
            lock.unlock();
        }
    }

    public boolean offer(T item) { // accepted
        Objects.requireNonNull(item);
        lock.lock();
        try {
            if (closed || count == slots.length) {
                dropped++;
                return false;
            }
            enqueue(item);
            return true;
        } finally {
            lock.unlock();
        }
    }

    /** Adds all of the items, or none of them if they do not fit. */
    public boolean offerAll(Collection<? extends T> items) { // refused: fault: A sees room for 3 through size(), B's offer takes the last places, A's offers then drop some items though it returns true; another thread also sees half of the batch
        if (slots.length - size() < items.size()) {
            return false;
        }
        for (T item : items) {
            offer(item);
        }
        return true;
    }

    public T poll(long timeout, TimeUnit unit) throws InterruptedException { // accepted
        long nanos = unit.toNanos(timeout);
        lock.lockInterruptibly();
        try {
            while (count == 0) {
                if (closed || nanos <= 0L) {
                    return null;
                }
                nanos = notEmpty.awaitNanos(nanos);
            }
            return dequeue();
        } finally {
            lock.unlock();
        }
    }

    public int drainTo(Collection<? super T> sink) { // accepted
        lock.lock();
        try {
            int n = 0;
            while (count > 0) {
                sink.add(dequeue());
                n++;
            }
            return n;
        } finally {
            lock.unlock();
        }
    }

    public int size() { // accepted
        lock.lock();
        try {
            return count;
        } finally {
            lock.unlock();
        }
    }

    public boolean isEmpty() { // refused: fault: one look at the plain int count without the lock
        return count == 0;
    }

    public long dropped() { // accepted
        lock.lock();
        try {
            return dropped;
        } finally {
            lock.unlock();
        }
    }

    /** Number of samples dropped since this method was last called. */
    public long pollDropped() { // refused: fault: A reads dropped()=3, B's offer fails and makes it 4, A sets 0: B's drop is never reported
        long n = dropped();
        lock.lock();
        try {
            dropped = 0;
        } finally {
            lock.unlock();
        }
        return n;
    }

    public void close() { // accepted
        lock.lock();
        try {
            closed = true;
            notEmpty.signalAll();
            notFull.signalAll();
        } finally {
            lock.unlock();
        }
    }

    @Override
    public Iterator<T> iterator() { // accepted
        lock.lock();
        try {
            List<T> copy = new ArrayList<>(count);
            for (int i = 0; i < count; i++) {
                copy.add(at((head + i) % slots.length));
            }
            return copy.iterator();
        } finally {
            lock.unlock();
        }
    }

    private void enqueue(T item) {
        slots[(head + count) % slots.length] = item;
        count++;
        notEmpty.signal();
    }

    private T dequeue() {
        T item = at(head);
        slots[head] = null;
        head = (head + 1) % slots.length;
        count--;
        notFull.signal();
        return item;
    }

    @SuppressWarnings("unchecked")
    private T at(int i) {
        return (T) slots[i];
    }
}
