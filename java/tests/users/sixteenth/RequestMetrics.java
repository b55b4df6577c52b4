// judged with: --public --infer
package com.example.sixteenth;

import java.util.HashMap;
import java.util.List;
import java.util.Map;
import java.util.concurrent.ConcurrentHashMap;
import java.util.concurrent.ConcurrentMap;
import java.util.concurrent.atomic.AtomicInteger;
import java.util.stream.Collectors;

/**
 * Counters and timings of the HTTP front end.
 */
public final class RequestMetrics {

    private static volatile RequestMetrics global;

    private final ConcurrentMap<String, Long> hits = new ConcurrentHashMap<>();
    private final AtomicInteger inFlight = new AtomicInteger();
    private volatile int peak;
    private final Object timing = new Object();
    private long samples;
    private long totalNanos;
    private long[] buckets;
    private Map<String, String> labels;

    private RequestMetrics() {
    }

    public static RequestMetrics global() { // accepted
        RequestMetrics metrics = global;
        if (metrics == null) {
            synchronized (RequestMetrics.class) {
                metrics = global;
                if (metrics == null) {
                    metrics = new RequestMetrics();
                    global = metrics;
                }
            }
        }
        return metrics;
    }

    public void hit(String route) { // accepted
        hits.merge(route, 1L, Long::sum);
    }

    public long hits(String route) { // accepted
        return hits.getOrDefault(route, 0L);
    }

    /** The busiest routes, the busiest first. */
    public List<String> topRoutes(int n) { // refused: fault: weakly consistent iteration: A reads a=10, B hits a 20 times and then b 15 times, A reads b=15 and ranks b over a, which never was so
        return hits.entrySet().stream()
                .sorted(Map.Entry.<String, Long>comparingByValue().reversed())
                .limit(n)
                .map(Map.Entry::getKey)
                .collect(Collectors.toList());
    }

    public int started() { // refused: fault: a has now=5 and passes the check, B has now=6 and writes peak=6, A writes peak=5; and inFlight is seen above peak in between
        int now = inFlight.incrementAndGet();
        if (now > peak) {
            peak = now;
        }
        return now;
    }

    public void finished() { // accepted
        inFlight.decrementAndGet();
    }

    public int inFlight() { // accepted
        return inFlight.get();
    }

    public int peakInFlight() { // accepted
        return peak;
    }

    public void recordLatency(long nanos) { // accepted
        int bucket = 64 - Long.numberOfLeadingZeros(Math.max(0, nanos));
        synchronized (timing) {
            if (buckets == null) {
                buckets = new long[65];
            }
            buckets[bucket]++;
            samples++;
            totalNanos += nanos;
        }
    }

    public double meanNanos() { // accepted
        synchronized (timing) {
            return samples == 0 ? 0.0 : (double) totalNanos / samples;
        }
    }

    public long samples() { // refused: fault: one look at a field without its lock
        return samples;
    }

    /** How many samples fell into each power of two. */
    public long[] histogram() { // accepted
        synchronized (timing) {
            return buckets == null ? new long[0] : buckets.clone();
        }
    }

    public void resetLatency() { // accepted
        synchronized (timing) {
            buckets = null;
            samples = 0;
            totalNanos = 0;
        }
    }

    public Map<String, String> labels() { // refused: fault: double-checked locking on a plain field: B sees the reference before the map's entries are visible; and all callers get the same mutable HashMap
        if (labels == null) {
            synchronized (timing) {
                if (labels == null) {
                    Map<String, String> map = new HashMap<>();
                    map.put("vm", System.getProperty("java.vm.name", "unknown"));
                    map.put("os", System.getProperty("os.name", "unknown"));
                    labels = map;
                }
            }
        }
        return labels;
    }
}
