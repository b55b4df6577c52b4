// judged with: --public --infer
package com.example.fourteenth;

import java.util.ArrayList;
import java.util.List;
import java.util.NoSuchElementException;
import java.util.concurrent.TimeUnit;
import java.util.concurrent.locks.Condition;
import java.util.concurrent.locks.ReentrantLock;

/**
 * Fixed-capacity ring of sensor readings, oldest first.
 */
public class SensorRingBuffer {

    public record Reading(long timestamp, double value) { }

    private final Reading[] slots;
    private final ReentrantLock lock = new ReentrantLock();
    private final Condition notEmpty = lock.newCondition();
    private final Condition notFull = lock.newCondition();
    private int head;
    private int count;
    private int dropped;

    public SensorRingBuffer(int capacity) {
        if (capacity <= 0) {
            throw new IllegalArgumentException("capacity: " + capacity);
        }
        this.slots = new Reading[capacity];
    }

    /** Blocks until there is room for the reading. */
    public void put(Reading reading) throws InterruptedException { // accepted
        lock.lockInterruptibly();
        try {
            while (count == slots.length) {
                notFull.await();
            }
            enqueue(reading);
        } finally {
            lock.unlock();
        }
    }

    public boolean offer(Reading reading, long timeout, TimeUnit unit) throws InterruptedException { // accepted
        long nanos = unit.toNanos(timeout);
        lock.lockInterruptibly();
        try {
            while (count == slots.length) {
                if (nanos <= 0L) {
                    dropped++;
                    return false;
                }
                nanos = notFull.awaitNanos(nanos);
            }
            enqueue(reading);
            return true;
        } finally {
            lock.unlock();
        }
    }

    /** Stores a burst of readings in the given order. */
    public void putAll(List<Reading> burst) throws InterruptedException { // refused: fault: each put takes the lock anew: another producer's reading gets between two of the burst, or drain() takes half of it
        for (Reading r : burst) {
            put(r);
        }
    }

    public Reading take() throws InterruptedException { // accepted
        lock.lockInterruptibly();
        try {
            while (count == 0) {
                notEmpty.await();
            }
            return dequeue();
        } finally {
            lock.unlock();
        }
    }

    public Reading latest() { // refused: fault: no lock: it sees count==1, a take() empties the ring, it then computes the index with count==0 (index -1 with head==0, or a null slot)
        if (count == 0) {
            throw new NoSuchElementException("no readings yet");
        }
        return slots[(head + count - 1) % slots.length];
    }

    public List<Reading> drain() { // accepted
        lock.lock();
        try {
            List<Reading> out = new ArrayList<>(count);
            while (count > 0) {
                out.add(dequeue());
            }
            return out;
        } finally {
            lock.unlock();
        }
    }

    public double average() { // accepted
        lock.lock();
        try {
            double sum = 0;
            for (int i = 0; i < count; i++) {
                sum += slots[(head + i) % slots.length].value();
            }
            return count == 0 ? Double.NaN : sum / count;
        } finally {
            lock.unlock();
        }
    }

    public int droppedCount() { // refused: fault: one look at a field without its lock
        return dropped;
    }

    private void enqueue(Reading reading) {
        slots[(head + count) % slots.length] = reading;
        count++;
        notEmpty.signal();
    }

    private Reading dequeue() {
        Reading r = slots[head];
        slots[head] = null;
        head = (head + 1) % slots.length;
        count--;
        notFull.signal();
        return r;
    }
}
