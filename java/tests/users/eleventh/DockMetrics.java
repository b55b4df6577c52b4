// judged with: --public --infer
package com.example.eleventh;

import java.util.Arrays;
import java.util.HashMap;
import java.util.Map;
import java.util.concurrent.ConcurrentHashMap;

/** Counters and unloading times of the loading docks. */
public class DockMetrics {

    private static volatile DockMetrics instance;

    private static final class Histogram {
        private final long[] bounds;
        private final long[] hits;
        private long sum;
        private long samples;

        Histogram(long... bounds) {
            this.bounds = bounds;
            this.hits = new long[bounds.length + 1];
        }

        synchronized void add(long value) {
            int at = Arrays.binarySearch(bounds, value);
            hits[at < 0 ? -at - 1 : at]++;
            sum += value;
            samples++;
        }

        synchronized double mean() {
            return samples == 0 ? 0.0 : (double) sum / samples;
        }

        synchronized long[] counts() {
            return hits.clone();
        }
    }

    private final ConcurrentHashMap<String, Long> arrivals = new ConcurrentHashMap<>();
    private final ConcurrentHashMap<String, Long> longest = new ConcurrentHashMap<>();
    private volatile Histogram unloading;
    private volatile int shift;
    private volatile long lastArrival;

    private DockMetrics() { }

    public static DockMetrics getInstance() { // accepted
        DockMetrics metrics = instance;
        if (metrics == null) {
            synchronized (DockMetrics.class) {
                metrics = instance;
                if (metrics == null) {
                    instance = metrics = new DockMetrics();
                }
            }
        }
        return metrics;
    }

    public long arrived(String dock) { // accepted
        return arrivals.merge(dock, 1L, Long::sum);
    }

    public long arrivals(String dock) { // accepted
        return arrivals.getOrDefault(dock, 0L);
    }

    /** Notes how long a lorry stood at the dock. */
    public void stood(String dock, long millis) { // refused: fault: compound use of a concurrent map: T1 reads max 5 and is to put 7, T2 puts 9, T1 puts 7 over it
        Long max = longest.get(dock);
        if (max == null || max < millis) {
            longest.put(dock, millis);
        }
    }

    public long longest(String dock) { // accepted
        Long max = longest.get(dock);
        return max == null ? 0 : max;
    }

    public Map<String, Long> arrivalsByDock() { // refused: fault: copies by weakly consistent iteration: T1 passes dock A, T2 counts an arrival at A and then one at B, T1 sees the one at B only
        return new HashMap<>(arrivals);
    }

    public void unloaded(long millis) { // refused: alarm: the expert sees no interruption
        histogram().add(millis);
    }

    public double meanUnloading() { // refused: fault: reads the volatile twice: T1 sees non-null, T2 calls discardUnloading(), T1 throws NullPointerException
        return unloading == null ? 0.0 : unloading.mean();
    }

    public long[] unloadingCounts() { // refused: alarm: the expert sees no interruption
        return histogram().counts();
    }

    public synchronized void discardUnloading() { // accepted
        unloading = null;
    }

    public int nextShift() { return ++shift; } // refused: fault: ++ on a volatile: two threads both read 2 and both return 3

    public int shift() { return shift; } // accepted

    public void touch(long now) { lastArrival = now; } // accepted

    public boolean quietSince(long moment) { return lastArrival < moment; } // accepted

    private Histogram histogram() {
        Histogram h = unloading;
        if (h == null) {
            synchronized (this) {
                h = unloading;
                if (h == null) {
                    h = new Histogram(1_000, 10_000, 60_000, 600_000);
                    unloading = h;
                }
            }
        }
        return h;
    }
}
