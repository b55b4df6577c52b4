// judged with: --public --infer
package com.example.first;

import java.util.Map;
import java.util.Objects;
import java.util.TreeMap;
import java.util.concurrent.ConcurrentHashMap;
import java.util.concurrent.atomic.AtomicInteger;
import java.util.concurrent.atomic.AtomicIntegerArray;
import java.util.concurrent.atomic.AtomicLong;

/** Latency statistics of a service, in microseconds. */
public final class LatencyMetrics {
    private static final int BUCKETS = 32;

    private final String service;
    private final AtomicLong count = new AtomicLong();
    private final AtomicLong sum = new AtomicLong();
    private final AtomicLong max = new AtomicLong(Long.MIN_VALUE);
    private final ConcurrentHashMap<String, AtomicInteger> tags = new ConcurrentHashMap<>();
    private final ConcurrentHashMap<String, Long> errors = new ConcurrentHashMap<>();
    private volatile AtomicIntegerArray histogram;
    private String label;
    private volatile long lastMicros;
    private volatile long lastAt;

    public LatencyMetrics(String service) {
        this.service = service;
    }

    public void record(long micros) { // refused: fault: two atomics are changed
        count.incrementAndGet();
        sum.addAndGet(micros);
    }

    public void recordMax(long micros) { // accepted
        long seen;
        do {
            seen = max.get();
            if (micros <= seen) return;
        } while (!max.compareAndSet(seen, micros));
    }

    public void recordBucket(long micros) { // refused: alarm: the lazy creation of an all-zero array shows nowhere
        int b = 63 - Long.numberOfLeadingZeros(Math.max(1, micros));
        histogram().incrementAndGet(Math.min(b, BUCKETS - 1));
    }

    public void touch(long micros, long now) { // refused: fault: two volatile writes
        lastMicros = micros;
        lastAt = now;
    }

    public long lastMicros() { return lastMicros; } // accepted

    public String last() { return lastMicros + "us at " + lastAt; } // refused: fault: two volatile reads

    public long count() { return count.get(); } // accepted

    public long max() { return max.get(); } // accepted

    public double mean() { // refused: fault: two atomic reads
        long n = count.get();
        return n == 0 ? Double.NaN : (double) sum.get() / n;
    }

    public void tag(String name) { // refused: fault: computeIfAbsent and the increment are two steps
        tags.computeIfAbsent(name, k -> new AtomicInteger()).incrementAndGet();
    }

    public Map<String, Integer> tagCounts() { // refused: fault: weakly consistent iteration
        Map<String, Integer> out = new TreeMap<>();
        tags.forEach((k, v) -> out.put(k, v.get()));
        return out;
    }

    public int tagCount(String name) { // accepted
        AtomicInteger n = tags.get(name);
        return n == null ? 0 : n.get();
    }

    public long error(Throwable t) { return errors.merge(t.getClass().getSimpleName(), 1L, Long::sum); } // accepted

    public long errorCount(Class<? extends Throwable> type) { return errors.getOrDefault(type.getSimpleName(), 0L); } // accepted

    public int bucket(int i) { // refused: alarm: null means 0 at the volatile read
        Objects.checkIndex(i, BUCKETS);
        AtomicIntegerArray h = histogram;
        return h == null ? 0 : h.get(i);
    }

    public String label() { // refused: fault: data race on label
        if (label == null) {
            synchronized (this) {
                if (label == null) label = "latency." + service.toLowerCase();
            }
        }
        return label;
    }

    public void reset() { // refused: fault: three atomics are set
        count.set(0);
        sum.set(0);
        max.set(Long.MIN_VALUE);
    }

    AtomicIntegerArray histogram() {
        AtomicIntegerArray h = histogram;
        if (h == null) {
            synchronized (this) {
                h = histogram;
                if (h == null) histogram = h = new AtomicIntegerArray(BUCKETS);
            }
        }
        return h;
    }
}
