// judged with: --public --infer
package com.example.twentysecond;

import java.util.Arrays;
import java.util.Map;
import java.util.Optional;
import java.util.TreeMap;
import java.util.concurrent.ConcurrentHashMap;
import java.util.concurrent.ConcurrentMap;
import java.util.concurrent.atomic.AtomicInteger;
import java.util.concurrent.atomic.AtomicLong;

/** Counters of the HTTP endpoints of this process. */
public class EndpointMetrics {
    private static volatile EndpointMetrics shared;

    /** Number of calls and the sum of their durations. */
    public record Totals(long calls, long nanos) {
        Totals plus(long extra) {
            return new Totals(calls + 1, nanos + extra);
        }

        public double mean() { // accepted
            return calls == 0 ? 0.0 : (double) nanos / calls;
        }
    }

    private static final class Timer {
        private final long[] buckets = new long[64];
        private long max;

        synchronized void add(long nanos) {
            buckets[63 - Long.numberOfLeadingZeros(Math.max(1, nanos))]++;
            max = Math.max(max, nanos);
        }

        synchronized long[] buckets() {
            return buckets;
        }

        synchronized long max() {
            return max;
        }
    }

    private final ConcurrentMap<String, Totals> totals = new ConcurrentHashMap<>();
    private final ConcurrentMap<String, Timer> timers = new ConcurrentHashMap<>();
    private final AtomicInteger inFlight = new AtomicInteger();
    private final AtomicLong peak = new AtomicLong();
    private volatile int failures;
    private volatile String banner;

    public static EndpointMetrics shared() { // accepted
        EndpointMetrics m = shared;
        if (m == null) {
            synchronized (EndpointMetrics.class) {
                m = shared;
                if (m == null) {
                    shared = m = new EndpointMetrics();
                }
            }
        }
        return m;
    }

    public void count(String endpoint, long nanos) { // accepted
        totals.merge(endpoint, new Totals(1, nanos), (old, one) -> old.plus(one.nanos()));
    }

    public void time(String endpoint, long nanos) { // refused: fault: get, put and add are three steps: A and B both find no timer, both put a new one, the sample in the first timer is lost
        Timer timer = timers.get(endpoint);
        if (timer == null) {
            timer = new Timer();
            timers.put(endpoint, timer);
        }
        timer.add(nanos);
    }

    public void begin() { // refused: fault: two atomics in two steps: inFlight 1, peak 1; A increments to 2, B's end() returns 1 (so A has begun), B's peak() still returns 1
        int now = inFlight.incrementAndGet();
        peak.accumulateAndGet(now, Math::max);
    }

    public int end() { // accepted
        return inFlight.updateAndGet(n -> n > 0 ? n - 1 : 0);
    }

    public void fail() { // refused: fault: volatile ++ is a read and a write: A and B both read 5, both write 6
        failures++;
    }

    public int failures() { // accepted
        return failures;
    }

    public Optional<Totals> totals(String endpoint) { // accepted
        return Optional.ofNullable(totals.get(endpoint));
    }

    public long[] histogram(String endpoint) { // refused: fault: hands out the private array of the timer: the caller reads it while B's time() writes it (buckets() being synchronized does not help)
        Timer timer = timers.get(endpoint);
        return timer == null ? new long[0] : timer.buckets();
    }

    public long slowest(String endpoint) { // refused: alarm: the map look-up fixes the timer (timers are never removed; only the lost put of time() could replace one), then one locked read
        return Optional.ofNullable(timers.get(endpoint)).map(Timer::max).orElse(0L);
    }

    public Map<String, Double> means() { // refused: fault: weakly consistent walk over the map: A has passed the place of "a", B counts "a" and then "b", A sees "b" but not "a"
        Map<String, Double> result = new TreeMap<>();
        totals.forEach((endpoint, t) -> result.put(endpoint, t.mean()));
        return result;
    }

    public long peak() { // accepted
        return peak.get();
    }

    /** The line shown on the status page; computed once. */
    public String banner() { // accepted
        if (banner == null) {
            synchronized (this) {
                if (banner == null) {
                    banner = "metrics@" + Integer.toHexString(Arrays.hashCode(new int[] {hashCode()}));
                }
            }
        }
        return banner;
    }
}
