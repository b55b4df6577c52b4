// judged with: --public --infer
package com.example.fourth;

import java.util.Arrays;
import java.util.Map;
import java.util.TreeMap;
import java.util.concurrent.atomic.AtomicLong;
import java.util.concurrent.atomic.AtomicLongArray;
import java.util.concurrent.atomic.AtomicReference;
import java.util.stream.IntStream;

/** Latencies in buckets of powers of two, and the cost of failures. */
public class LatencyStats {

    public record Totals(long count, long sum) {
        static final Totals NONE = new Totals(0, 0);

        Totals plus(long value) { return new Totals(count + 1, sum + value); } // accepted

        double mean() { return count == 0 ? Double.NaN : (double) sum / count; }
    }

    private static class Holder {
        static final LatencyStats INSTANCE = new LatencyStats();
    }

    private static final int BUCKETS = 64;

    private final AtomicLongArray buckets = new AtomicLongArray(BUCKETS);
    private final AtomicLong count = new AtomicLong();
    private final AtomicLong sum = new AtomicLong();
    private final AtomicLong max = new AtomicLong(Long.MIN_VALUE);
    private final AtomicReference<Totals> failures = new AtomicReference<>(Totals.NONE);

    private volatile long[] bounds;
    private Map<Long, Integer> boundIndex;

    public static LatencyStats global() { // accepted
        return Holder.INSTANCE;
    }

    public void record(long nanos) { // refused: fault: four atomics one after the other
        buckets.incrementAndGet(bucketOf(nanos));
        sum.addAndGet(nanos);
        count.incrementAndGet();
        noteMax(nanos);
    }

    public void noteMax(long nanos) { // refused: alarm: (hard: CAS loop), failed rounds have no effect
        long seen = max.get();
        while (nanos > seen && !max.compareAndSet(seen, nanos)) {
            seen = max.get();
        }
    }

    public long count() { return count.get(); } // accepted

    public long max() { return max.get(); } // accepted

    public double mean() { // refused: fault: reads two atomics
        long n = count.get();
        return n == 0 ? Double.NaN : (double) sum.get() / n;
    }

    /** @return the upper bound of the bucket that holds the quantile q */
    public long quantile(double q) { // refused: fault: reads 64 cells one by one
        long[] copy = IntStream.range(0, BUCKETS).mapToLong(buckets::get).toArray();
        long rank = (long) Math.ceil(q * Arrays.stream(copy).sum());
        long below = 0;
        for (int i = 0; i < BUCKETS; i++) {
            below += copy[i];
            if (below >= rank) return upperBound(i);
        }
        return Long.MAX_VALUE;
    }

    public void failed(long cost) { // accepted
        failures.updateAndGet(t -> t.plus(cost));
    }

    public Totals failures() { // accepted
        return failures.get();
    }

    public double meanFailureCost() { // accepted
        return failures.get().mean();
    }

    /** @return what the failures were up to now, and begins anew */
    public Totals resetFailures() { // accepted
        return failures.getAndSet(Totals.NONE);
    }

    public long upperBound(int bucket) { // accepted
        long[] b = bounds;
        if (b == null) {
            synchronized (this) {
                b = bounds;
                if (b == null) {
                    b = IntStream.range(0, BUCKETS).mapToLong(i -> i >= 63 ? Long.MAX_VALUE : (1L << i)).toArray();
                    bounds = b;
                }
            }
        }
        return b[bucket];
    }

    public Integer indexOfBound(long bound) { // refused: fault: broken double-checked locking: data race on `boundIndex` (plain)
        if (boundIndex == null) {
            synchronized (this) {
                if (boundIndex == null) {
                    boundIndex = new TreeMap<>();
                    for (int i = 0; i < BUCKETS; i++) boundIndex.putIfAbsent(upperBound(i), i);
                }
            }
        }
        return boundIndex.get(bound);
    }

    private static int bucketOf(long nanos) {
        return nanos <= 1 ? 0 : 64 - Long.numberOfLeadingZeros(nanos - 1);
    }
}
