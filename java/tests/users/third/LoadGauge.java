// judged with: --public --infer
package com.example.third;

import java.util.Arrays;
import java.util.concurrent.atomic.AtomicReference;
import java.util.concurrent.atomic.LongAdder;
import java.util.concurrent.locks.StampedLock;
import java.util.function.Supplier;

/** Moving average and percentiles of a load; times are given by the caller. */
public class LoadGauge {
    public record Reading(double average, long at) {
        public boolean olderThan(long ttl, long now) { return now - at > ttl; } // accepted
    }

    private static final int WINDOW = 64;

    private final StampedLock sl = new StampedLock();
    private final double alpha;
    private volatile double average;
    private volatile long at;
    private final double[] window = new double[WINDOW];
    private int seen;
    private volatile double[] sorted;

    private final LongAdder events = new LongAdder();
    private final AtomicReference<String> unit = new AtomicReference<>();
    private final Supplier<String> unitSource;

    public LoadGauge(double alpha, Supplier<String> unitSource) {
        this.alpha = alpha;
        this.unitSource = unitSource;
    }

    public void update(double v, long now) { // refused: alarm: write lock
        long s = sl.writeLock();
        try {
            average += alpha * (v - average);
            at = now;
        } finally { sl.unlockWrite(s); }
    }

    public Reading reading() { // refused: alarm: the optimistic pair of volatile reads is used only when the stamp validates
        long s = sl.tryOptimisticRead();
        Reading r = new Reading(average, at);
        if (s != 0 && sl.validate(s)) return r;
        s = sl.readLock();
        try { return new Reading(average, at); } finally { sl.unlockRead(s); }
    }

    public long age(long now) { return now - at; } // accepted
    public double decayed(long now, double tau) { // refused: alarm: one reading, then private work
        Reading r = reading();
        return r.average() * Math.exp((r.at() - now) / tau);
    }

    public boolean resetIfStale(long now, long ttl) { // refused: fault: checked in reading, acted later without a new check
        if (!reading().olderThan(ttl, now)) return false;
        long s = sl.writeLock();
        try {
            average = 0;
            at = now;
            return true;
        } finally { sl.unlockWrite(s); }
    }

    public boolean restartIfStale(long now, long ttl) { // refused: alarm: the test is made again after the read lock had to be left
        long s = sl.readLock();
        try {
            while (now - at > ttl) {
                long w = sl.tryConvertToWriteLock(s);
                if (w != 0) {
                    s = w;
                    average = 0;
                    at = now;
                    return true;
                }
                sl.unlockRead(s);
                s = sl.writeLock();
            }
            return false;
        } finally { sl.unlock(s); }
    }

    public void sample(double v) { // refused: fault: the window is changed under the monitor, events after it
        synchronized (window) {
            window[seen++ % WINDOW] = v;
            sorted = null;
        }
        events.increment();
    }

    public void samples(double... vs) { // accepted
        synchronized (window) {
            for (double v : vs) window[seen++ % WINDOW] = v;
            sorted = null;
        }
    }

    public double percentile(double p) { // refused: fault: sorted is filled in outside the monitor
        double[] s = sorted;
        if (s == null) {
            synchronized (window) { s = Arrays.copyOf(window, Math.min(seen, WINDOW)); }
            Arrays.sort(s);
            sorted = s;
        }
        return s.length == 0 ? Double.NaN : s[(int) (p * (s.length - 1))];
    }

    public double windowMean() { // accepted
        synchronized (window) { return Arrays.stream(window, 0, Math.min(seen, WINDOW)).average().orElse(0); }
    }

    public long events() { return events.sum(); } // accepted
    public void event() { events.increment(); } // accepted

    public String unit() { // refused: alarm: unit is set at most once
        String u = unit.get();
        if (u != null) return u;
        unit.compareAndSet(null, unitSource.get());
        return unit.get();
    }
}
