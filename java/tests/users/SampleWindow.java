package com.example.audio;

import java.util.Arrays;
import java.util.concurrent.TimeUnit;
import java.util.concurrent.locks.Condition;
import java.util.concurrent.locks.Lock;
import java.util.concurrent.locks.ReentrantLock;

/** A buffer between a device that brings samples and those who play them: a ring of numbers, with blocks in one call. */
// judged with: --public --infer
public class SampleWindow {

    /** What becomes of samples that find no room. */
    public enum Overflow {
        WAIT, DROP_OLDEST, FAIL
    }

    private final Lock lock = new ReentrantLock();
    private final Condition space = lock.newCondition();
    private final Condition data = lock.newCondition();
    private final short[] ring;
    private final Overflow policy;
    private int first;
    private int count;
    private long dropped;
    private boolean ended;

    public SampleWindow(int capacity, Overflow policy) {
        this.ring = new short[capacity];
        this.policy = policy;
    }

    public void put(short sample) throws InterruptedException { // accepted
        lock.lock();
        try {
            while (count == ring.length && policy == Overflow.WAIT && !ended) {
                space.await();
            }
            if (ended) {
                throw new IllegalStateException("the stream has ended");
            }
            if (count == ring.length) {
                switch (policy) {
                    case DROP_OLDEST -> {
                        first = (first + 1) % ring.length;
                        count--;
                        dropped++;
                    }
                    default -> throw new IllegalStateException("no room");
                }
            }
            ring[(first + count++) % ring.length] = sample;
            data.signal();
        } finally {
            lock.unlock();
        }
    }

    public void putAll(short[] samples) throws InterruptedException { // refused: fault: one region for each sample
        for (short sample : samples) {
            put(sample);
        }
    }

    public int take() throws InterruptedException { // accepted
        lock.lock();
        try {
            while (count == 0 && !ended) {
                data.await();
            }
            return count == 0 ? -1 : remove();
        } finally {
            lock.unlock();
        }
    }

    public int poll(long timeout, TimeUnit unit) throws InterruptedException { // accepted
        long left = unit.toNanos(timeout);
        lock.lock();
        try {
            while (count == 0 && !ended) {
                if (left <= 0) {
                    return -1;
                }
                left = data.awaitNanos(left);
            }
            return count == 0 ? -1 : remove();
        } finally {
            lock.unlock();
        }
    }

    public int read(short[] target, int from, int length) { // accepted
        lock.lock();
        try {
            int moved = Math.min(length, count);
            for (int k = 0; k < moved; k++) {
                target[from + k] = remove();
            }
            return moved;
        } finally {
            lock.unlock();
        }
    }

    private short remove() {
        short sample = ring[first];
        first = (first + 1) % ring.length;
        count--;
        space.signal();
        return sample;
    }

    public short[] drain() { // refused: fault: the room is asked for in one region and filled in another
        short[] all = new short[size()];
        int moved = read(all, 0, all.length);
        return moved == all.length ? all : Arrays.copyOf(all, moved);
    }

    public int size() { // accepted
        lock.lock();
        try {
            return count;
        } finally {
            lock.unlock();
        }
    }

    public boolean isEmpty() { // accepted
        return size() == 0;
    }

    public double loudness() { // accepted
        lock.lock();
        try {
            double sum = 0;
            for (int k = 0; k < count; k++) {
                short sample = ring[(first + k) % ring.length];
                sum += (double) sample * sample;
            }
            return count == 0 ? 0 : Math.sqrt(sum / count);
        } finally {
            lock.unlock();
        }
    }

    public String describe() { // refused: fault: three regions
        return String.format("%d of %d, %d dropped, %.1f", size(), ring.length, dropped(), loudness());
    }

    public long dropped() { // accepted
        lock.lock();
        try {
            return dropped;
        } finally {
            lock.unlock();
        }
    }

    public void end() { // accepted
        lock.lock();
        try {
            ended = true;
            data.signalAll();
            space.signalAll();
        } finally {
            lock.unlock();
        }
    }

    public Overflow policy() { // accepted
        return policy;
    }
}
