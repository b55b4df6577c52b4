// judged with: --public --infer
package com.example.twentythird;

import java.util.Arrays;
import java.util.OptionalDouble;
import java.util.concurrent.locks.StampedLock;
import java.util.function.DoubleConsumer;
import java.util.stream.DoubleStream;

/** Something that has a name and a unit and can be shown on the dashboard. */
abstract class Series {
    private final String name;
    private String unit = "";

    protected Series(String name) {
        this.name = name;
    }

    public final String name() { // accepted
        return name;
    }

    public synchronized String unit() { // accepted
        return unit;
    }

    public synchronized void unit(String unit) { // accepted
        this.unit = unit;
    }

    public String label() { // refused: fault: unit() twice, two regions: A sees "C" (not empty), B sets "", A gives "temp []", which no single moment gives
        return unit().isEmpty() ? name : name + " [" + unit() + "]";
    }

    public abstract OptionalDouble latest();
}

/** The last readings of a sensor, overwriting the oldest. Reading is far more frequent than adding. */
public class SampleWindow extends Series {
    private final StampedLock sl = new StampedLock();
    private double[] data;
    private int filled;
    private int next;

    public SampleWindow(String name, int capacity) {
        super(name);
        this.data = new double[capacity];
    }

    public void add(double value) { // accepted
        long stamp = sl.writeLock();
        try {
            store(value);
        } finally {
            sl.unlockWrite(stamp);
        }
    }

    public void addAll(double... values) { // accepted
        long stamp = sl.writeLock();
        try {
            for (double v : values) store(v);
        } finally {
            sl.unlockWrite(stamp);
        }
    }

    @Override
    public OptionalDouble latest() { // accepted
        long stamp = sl.readLock();
        try {
            if (filled == 0) return OptionalDouble.empty();
            return OptionalDouble.of(data[(next + data.length - 1) % data.length]);
        } finally {
            sl.unlockRead(stamp);
        }
    }

    public int filled() { // refused: alarm: correct optimistic read: one field, validated, else again under the read lock
        long stamp = sl.tryOptimisticRead();
        int n = filled;
        if (!sl.validate(stamp)) {
            stamp = sl.readLock();
            try {
                n = filled;
            } finally {
                sl.unlockRead(stamp);
            }
        }
        return n;
    }

    public double mean() { // refused: fault: validates too early, the elements are read after it: window [1,1], A reads d[0]=1, B addAll(5,5), A reads d[1]=5, gives 3; the mean was 1 or 5 (the fallback path through stream() is fine)
        long stamp = sl.tryOptimisticRead();
        double[] d = data;
        int n = filled;
        if (!sl.validate(stamp)) return stream().average().orElse(0);
        double sum = 0;
        for (int i = 0; i < n; i++) sum += d[i];
        return n == 0 ? 0 : sum / n;
    }

    public boolean isFull() { // refused: fault: two unlocked looks: 4 of 8 filled, A reads filled 4, B resize(4) (0 of 4), A reads data.length 4: true, though it was full neither before nor after
        return filled == data.length;
    }

    public DoubleStream stream() { // refused: alarm: stream over a copy made under the read lock
        long stamp = sl.readLock();
        try {
            return DoubleStream.of(Arrays.copyOf(data, filled));
        } finally {
            sl.unlockRead(stamp);
        }
    }

    public void forEach(DoubleConsumer action) { // accepted
        long stamp = sl.readLock();
        try {
            for (int i = 0; i < filled; i++) action.accept(data[i]);
        } finally {
            sl.unlockRead(stamp);
        }
    }

    /** Changes the capacity; the window starts again from empty. */
    public void resize(int capacity) { // refused: fault: check outside the lock, not repeated inside: A resize(8) sees 4, B resize(8) and adds samples, A empties the window though the capacity is 8 already
        if (data.length == capacity) return;
        long stamp = sl.writeLock();
        try {
            data = new double[capacity];
            filled = next = 0;
        } finally {
            sl.unlockWrite(stamp);
        }
    }

    private void store(double value) {
        data[next] = value;
        next = (next + 1) % data.length;
        if (filled < data.length) filled++;
    }
}
