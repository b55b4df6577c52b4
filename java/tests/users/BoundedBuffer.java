package com.example.queue;

import java.util.Collection;
import java.util.List;
import java.util.concurrent.TimeUnit;
import java.util.concurrent.locks.Condition;
import java.util.concurrent.locks.Lock;
import java.util.concurrent.locks.ReentrantLock;

/** A buffer of a fixed size between threads that make things and threads that use them. */
// judged with: --public --infer
public class BoundedBuffer<E> {
    private final Lock lock = new ReentrantLock();
    private final Condition notFull = lock.newCondition();
    private final Condition notEmpty = lock.newCondition();
    private final Object[] items;
    private int head;
    private int tail;
    private int count;

    public BoundedBuffer(int capacity) {
        if (capacity <= 0) {
            throw new IllegalArgumentException("capacity: " + capacity);
        }
        items = new Object[capacity];
    }

    public void put(E item) throws InterruptedException { // accepted
        lock.lock();
        try {
            while (count == items.length) {
                notFull.await();
            }
            insert(item);
        } finally {
            lock.unlock();
        }
    }

    public boolean offer(E item) { // accepted
        lock.lock();
        try {
            if (count == items.length) {
                return false;
            }
            insert(item);
            return true;
        } finally {
            lock.unlock();
        }
    }

    public boolean offer(E item, long timeout, TimeUnit unit) throws InterruptedException { // accepted
        long nanos = unit.toNanos(timeout);
        lock.lockInterruptibly();
        try {
            while (count == items.length) {
                if (nanos <= 0) {
                    return false;
                }
                nanos = notFull.awaitNanos(nanos);
            }
            insert(item);
            return true;
        } finally {
            lock.unlock();
        }
    }

    public E take() throws InterruptedException { // accepted
        lock.lock();
        try {
            while (count == 0) {
                notEmpty.await();
            }
            return extract();
        } finally {
            lock.unlock();
        }
    }

    public int size() { // accepted
        lock.lock();
        try {
            return count;
        } finally {
            lock.unlock();
        }
    }

    public boolean isEmpty() { // accepted
        return size() == 0;
    }

    public int drainTo(Collection<? super E> target) { // accepted
        lock.lock();
        try {
            int drained = 0;
            while (count > 0) {
                target.add(extract());
                drained++;
            }
            return drained;
        } finally {
            lock.unlock();
        }
    }

    public void putAll(List<? extends E> all) throws InterruptedException { // refused: fault: one region for each element
        for (E item : all) {
            put(item);
        }
    }

    private void insert(E item) {
        items[tail] = item;
        tail = (tail + 1) % items.length;
        count++;
        notEmpty.signal();
    }

    @SuppressWarnings("unchecked")
    private E extract() {
        E item = (E) items[head];
        items[head] = null;
        head = (head + 1) % items.length;
        count--;
        notFull.signal();
        return item;
    }
}
