// judged with: --public --infer
package com.example.eleventh;

import java.util.ArrayList;
import java.util.Arrays;
import java.util.Iterator;
import java.util.List;
import java.util.NoSuchElementException;

/** Fixed-size ring of telemetry samples; when full the oldest one is overwritten. */
public class TelemetryRing<T> implements Iterable<T> {

    /** Told about samples that fell out of the ring. */
    public interface EvictionListener<S> {
        void evicted(S sample, long sequence);
    }

    private final Object[] slots;
    private int head;
    private int size;
    private long nextSequence;
    private long dropped;
    private EvictionListener<? super T> listener;

    public TelemetryRing(int capacity) {
        this.slots = new Object[capacity];
    }

    public synchronized void setListener(EvictionListener<? super T> listener) { // accepted
        this.listener = listener;
    }

    /** Records a sample and returns its sequence number. */
    public synchronized long record(T sample) { // accepted
        if (size == slots.length) {
            T oldest = slot(0);
            slots[head] = sample;
            head = (head + 1) % slots.length;
            dropped++;
            if (listener != null) {
                listener.evicted(oldest, nextSequence - slots.length);
            }
        } else {
            slots[(head + size) % slots.length] = sample;
            size++;
        }
        return nextSequence++;
    }

    public synchronized T get(int index) { // accepted
        if (index < 0 || index >= size) {
            throw new IndexOutOfBoundsException("index " + index + ", size " + size);
        }
        return slot(index);
    }

    public T newest() { // refused: fault: size() and get(n-1) are two regions: T1 reads n=3, T2 calls clear(), T1's get(2) throws IndexOutOfBounds, which no uninterrupted run can do (or T2 drains and records, and T1 returns a sample that is not the newest)
        int n = size();
        return n == 0 ? null : get(n - 1);
    }

    public synchronized int size() { return size; } // accepted

    public boolean isFull() { // refused: fault: one look at a field without its lock
        synchronized (slots) { return size == slots.length; }
    }

    public long dropped() { return dropped; } // refused: fault: a race: a single unlocked read of a plain long (record writes it once; as a long it may even tear on a 32-bit VM)

    public synchronized List<T> snapshot() { // accepted
        List<T> copy = new ArrayList<>(size);
        for (int i = 0; i < size; i++) {
            copy.add(slot(i));
        }
        return copy;
    }

    public synchronized void clear() { // accepted
        Arrays.fill(slots, null);
        head = 0;
        size = 0;
    }

    public synchronized List<T> drain() { // accepted
        List<T> all = snapshot();
        clear();
        return all;
    }

    /** Appends all samples of the other ring to this one. */
    public synchronized void absorb(TelemetryRing<? extends T> other) { // refused: fault: holds only this ring's monitor, other is looked at in n+1 separate regions: T1 reads other.size()=5, T2 calls other.clear(), T1's other.get(i) throws after part was recorded (or T2's other.record overwrites, so that samples are skipped)
        int n = other.size();
        for (int i = 0; i < n; i++) {
            record(other.get(i));
        }
    }

    @Override
    public Iterator<T> iterator() { // accepted: makes a Cursor and touches no shared state, so atomic in itself; but it hands out a live view of the ring whose next() is broken, which many would count against it
        return new Cursor();
    }

    @SuppressWarnings("unchecked")
    private T slot(int i) {
        return (T) slots[(head + i) % slots.length];
    }

    private final class Cursor implements Iterator<T> {
        private int index;

        @Override
        public boolean hasNext() { // refused: alarm: the expert sees no interruption
            return index < size();
        }

        @Override
        public T next() { // refused: fault: hasNext() and get(index++) are two regions: T1's hasNext() is true, T2 clears the ring, T1's get throws IndexOutOfBounds rather than NoSuchElement
            if (!hasNext()) throw new NoSuchElementException();
            return get(index++);
        }
    }
}
