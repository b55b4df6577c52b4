// judged with: --public --infer
package com.example.twentysecond;

import java.util.ArrayList;
import java.util.Collection;
import java.util.Iterator;
import java.util.List;
import java.util.NoSuchElementException;
import java.util.Objects;
import java.util.Optional;
import java.util.concurrent.TimeUnit;
import java.util.concurrent.locks.Condition;
import java.util.concurrent.locks.ReentrantLock;

/** Bounded FIFO of telemetry frames, shared by the device readers and the uploader. */
public class TelemetryRing<T> implements Iterable<T> {
    private final ReentrantLock lock = new ReentrantLock();
    private final Condition notEmpty = lock.newCondition();
    private final Condition notFull = lock.newCondition();
    private final Object[] slots;
    private int head;
    private int size;

    public TelemetryRing(int capacity) {
        this.slots = new Object[capacity];
    }

    public void put(T frame) throws InterruptedException { // accepted
        Objects.requireNonNull(frame);
        lock.lockInterruptibly();
        try {
            while (size == slots.length) notFull.await();
            enqueue(frame);
        } finally {
            lock.unlock();
        }
    }

    public boolean offer(T frame) { // accepted
        Objects.requireNonNull(frame);
        lock.lock();
        try {
            if (size == slots.length) return false;
            enqueue(frame);
            return true;
        } finally {
            lock.unlock();
        }
    }

    /** Adds all frames in order, waiting for room where needed. */
    public void putAll(Collection<? extends T> frames) throws InterruptedException { // refused: fault: a region per frame: A has put f1 of [f1,f2], B puts g, A puts f2; snapshot gives f1,g,f2 (also a consumer sees half of the batch)
        for (T frame : frames) put(frame);
    }

    public boolean offerIfAbsent(T frame) { // refused: fault: check-then-act in two regions: A and B both see a snapshot without x, both offer x, x is in the ring twice
        return !snapshot().contains(frame) && offer(frame);
    }

    public Optional<T> poll(long timeout, TimeUnit unit) throws InterruptedException { // accepted
        long nanos = unit.toNanos(timeout);
        lock.lockInterruptibly();
        try {
            while (size == 0) {
                if (nanos <= 0) return Optional.empty();
                nanos = notEmpty.awaitNanos(nanos);
            }
            return Optional.of(dequeue());
        } finally {
            lock.unlock();
        }
    }

    public int drainTo(Collection<? super T> sink, int max) { // accepted
        lock.lock();
        try {
            int n = Math.min(max, size);
            for (int i = 0; i < n; i++) sink.add(dequeue());
            return n;
        } finally {
            lock.unlock();
        }
    }

    @SuppressWarnings("unchecked")
    public List<T> snapshot() { // accepted
        lock.lock();
        try {
            List<T> copy = new ArrayList<>(size);
            for (int i = 0; i < size; i++) copy.add((T) slots[(head + i) % slots.length]);
            return copy;
        } finally {
            lock.unlock();
        }
    }

    public boolean isEmpty() { // refused: fault: one look at the plain int size without the lock
        return size == 0;
    }

    @Override
    public Iterator<T> iterator() { // refused: fault: hands out a live iterator over slots/head/size that takes no lock; the call itself touches nothing
        return new FrameIterator();
    }

    private void enqueue(T frame) {
        slots[(head + size++) % slots.length] = frame;
        notEmpty.signal();
    }

    @SuppressWarnings("unchecked")
    private T dequeue() {
        T frame = (T) slots[head];
        slots[head] = null;
        head = (head + 1) % slots.length;
        size--;
        notFull.signal();
        return frame;
    }

    private final class FrameIterator implements Iterator<T> {
        private int offset;

        @Override
        public boolean hasNext() { // refused: fault: one look at size without the lock (offset is the iterator's own)
            return offset < size;
        }

        @Override
        @SuppressWarnings("unchecked")
        public T next() { // refused: fault: no lock: hasNext true, then a consumer dequeues, head moves (slot is null): next returns null or skips a frame
            if (!hasNext()) throw new NoSuchElementException();
            return (T) slots[(head + offset++) % slots.length];
        }
    }
}
