package ring;

import atomic.Atomic;
import javax.annotation.concurrent.GuardedBy;

/** A ring of numbers with wait and notifyAll, and an array that never gets out. */
public final class RingBuffer {
    private final Object lock = new Object();
    @GuardedBy("lock") private final int[] ring;
    @GuardedBy("lock") private int first;
    @GuardedBy("lock") private int count;
    @GuardedBy("lock") private boolean closed;

    public RingBuffer(int size) {
        ring = new int[size];
    }

    @Atomic
    public void put(int number) throws InterruptedException {
        synchronized (lock) {
            while (count == ring.length && !closed) {
                lock.wait();
            }
            if (closed) {
                throw new IllegalStateException("closed");
            }
            append(number);
            lock.notifyAll();
        }
    }

    @Atomic
    public int take() throws InterruptedException {
        synchronized (lock) {
            while (count == 0) {
                lock.wait();
            }
            int number = ring[first];
            first = (first + 1) % ring.length;
            count--;
            lock.notifyAll();
            return number;
        }
    }

    @Atomic
    public boolean putAll(int[] numbers) {
        synchronized (lock) {
            if (closed || numbers.length > ring.length - count) {
                return false;
            }
            for (int number : numbers) {
                append(number);
            }
            lock.notifyAll();
            return true;
        }
    }

    @Atomic
    public int[] toArray() {
        synchronized (lock) {
            int[] copy = new int[count];
            for (int index = 0; index < count; index++) {
                copy[index] = ring[(first + index) % ring.length];
            }
            return copy;
        }
    }

    @Atomic
    public void close() {
        synchronized (lock) {
            closed = true;
            lock.notifyAll();
        }
    }

    @GuardedBy("lock") // harmless without holding: what every caller of a private method holds is found without it
    private void append(int number) {
        ring[(first + count) % ring.length] = number;
        count++;
    }
}
