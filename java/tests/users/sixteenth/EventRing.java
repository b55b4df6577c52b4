// judged with: --public --infer
package com.example.sixteenth;

import java.util.ArrayList;
import java.util.List;
import java.util.Objects;
import java.util.concurrent.locks.Condition;
import java.util.concurrent.locks.ReentrantLock;

/** Fixed-capacity ring that hands events from the network threads to the dispatchers. */
public class EventRing<E> {

    private final Object[] slots;
    private final ReentrantLock lock = new ReentrantLock();
    private final Condition notEmpty = lock.newCondition();
    private final Condition notFull = lock.newCondition();
    private int head;
    private int count;

    public EventRing(int capacity) {
        this.slots = new Object[capacity];
    }

    /** Waits for room if the ring is full. */
    public void put(E event) throws InterruptedException { // accepted
        Objects.requireNonNull(event);
        lock.lockInterruptibly();
        try {
            while (count == slots.length) {
                notFull.await();
            }
            enqueue(event);
        } finally {
            lock.unlock();
        }
    }

    public boolean offer(E event) { // accepted
        Objects.requireNonNull(event);
        lock.lock();
        try {
            if (count == slots.length) {
                return false;
            }
            enqueue(event);
            return true;
        } finally {
            lock.unlock();
        }
    }

    /** Adds all of the events, or none of them. */
    public boolean offerAll(List<? extends E> events) { // refused: fault: a sees room for 3, B offers into the ring, then some of A's offers fail (results ignored) and A returns true; also a consumer sees a part of the batch
        if (slots.length - size() < events.size()) {
            return false;
        }
        events.forEach(this::offer);
        return true;
    }

    public E take() throws InterruptedException { // accepted
        lock.lockInterruptibly();
        try {
            while (count == 0) {
                notEmpty.await();
            }
            return dequeue();
        } finally {
            lock.unlock();
        }
    }

    /** Waits for one event and takes up to {@code max} consecutive ones. */
    public List<E> takeBatch(int max) throws InterruptedException { // refused: fault: a takes event 1 in the first region, B takes event 2, A goes on with event 3: the batch is not consecutive
        List<E> batch = new ArrayList<>(max);
        batch.add(take());
        lock.lock();
        try {
            while (batch.size() < max && count > 0) {
                batch.add(dequeue());
            }
        } finally {
            lock.unlock();
        }
        return batch;
    }

    public List<E> drain() { // refused: alarm: size() is only a capacity hint for the local list; all of the emptying is in one region
        List<E> out = new ArrayList<>(size());
        lock.lock();
        try {
            while (count > 0) {
                out.add(dequeue());
            }
        } finally {
            lock.unlock();
        }
        return out;
    }

    public int size() { // accepted
        lock.lock();
        try {
            return count;
        } finally {
            lock.unlock();
        }
    }

    public boolean isEmpty() { // refused: fault: one look at a field without its lock
        return count == 0;
    }

    private void enqueue(E event) {
        slots[(head + count++) % slots.length] = event;
        notEmpty.signal();
    }

    @SuppressWarnings("unchecked")
    private E dequeue() {
        E event = (E) slots[head];
        slots[head] = null;
        head = (head + 1) % slots.length;
        count--;
        notFull.signal();
        return event;
    }
}
