package com.example.messages;

import java.util.ArrayList;
import java.util.List;
import java.util.concurrent.TimeUnit;
import java.util.concurrent.locks.Condition;
import java.util.concurrent.locks.ReentrantLock;

/** A buffer of messages of a fixed size, as a ring of slots, with a lock and two conditions. */
// judged with: --public --infer
public final class MessageQueue<M> {
    private final ReentrantLock lock = new ReentrantLock();
    private final Condition notFull = lock.newCondition();
    private final Condition notEmpty = lock.newCondition();
    private final Object[] slots;
    private int head;
    private int size;
    private boolean closed;

    public MessageQueue(int capacity) {
        if (capacity <= 0) {
            throw new IllegalArgumentException("capacity: " + capacity);
        }
        slots = new Object[capacity];
    }

    private void insert(M message) {
        slots[(head + size) % slots.length] = message;
        size++;
        notEmpty.signal();
    }

    @SuppressWarnings("unchecked")
    private M extract() {
        M message = (M) slots[head];
        slots[head] = null;
        head = (head + 1) % slots.length;
        size--;
        notFull.signal();
        return message;
    }

    public void put(M message) throws InterruptedException { // accepted
        lock.lockInterruptibly();
        try {
            while (size == slots.length && !closed) {
                notFull.await();
            }
            if (closed) {
                throw new IllegalStateException("closed");
            }
            insert(message);
        } finally {
            lock.unlock();
        }
    }

    public boolean offer(M message) { // accepted
        lock.lock();
        try {
            if (closed || size == slots.length) {
                return false;
            }
            insert(message);
            return true;
        } finally {
            lock.unlock();
        }
    }

    public M take() throws InterruptedException { // accepted
        lock.lockInterruptibly();
        try {
            while (size == 0) {
                notEmpty.await();
            }
            return extract();
        } finally {
            lock.unlock();
        }
    }

    public M poll(long timeout, TimeUnit unit) throws InterruptedException { // accepted
        long nanos = unit.toNanos(timeout);
        lock.lockInterruptibly();
        try {
            while (size == 0) {
                if (nanos <= 0L) {
                    return null;
                }
                nanos = notEmpty.awaitNanos(nanos);
            }
            return extract();
        } finally {
            lock.unlock();
        }
    }

    public M peek() { // accepted
        lock.lock();
        try {
            @SuppressWarnings("unchecked")
            M first = size == 0 ? null : (M) slots[head];
            return first;
        } finally {
            lock.unlock();
        }
    }

    public int size() { // accepted
        lock.lock();
        try {
            return size;
        } finally {
            lock.unlock();
        }
    }

    public boolean isEmpty() { // accepted
        return size() == 0;
    }

    public int remainingCapacity() { // accepted
        return slots.length - size();
    }

    public List<M> drain() { // accepted
        List<M> all = new ArrayList<>();
        lock.lock();
        try {
            while (size > 0) {
                all.add(extract());
            }
        } finally {
            lock.unlock();
        }
        return all;
    }

    public void putAll(List<? extends M> messages) throws InterruptedException { // refused: fault: one region for each message
        for (M message : messages) {
            put(message);
        }
    }

    public boolean offerIfEmpty(M message) { // refused: fault: another thread may fill it between the look and the step
        return isEmpty() && offer(message);
    }

    public String describe() { // refused: fault: two regions, so that the two numbers may not belong together
        return size() + " of " + (size() + remainingCapacity());
    }

    public void close() { // accepted
        lock.lock();
        try {
            closed = true;
            notFull.signalAll();
        } finally {
            lock.unlock();
        }
    }
}
