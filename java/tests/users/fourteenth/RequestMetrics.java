// judged with: --public --infer
package com.example.fourteenth;

import java.util.Map;
import java.util.Optional;
import java.util.concurrent.ConcurrentHashMap;
import java.util.concurrent.atomic.AtomicInteger;
import java.util.concurrent.atomic.AtomicLong;

/**
 * Process-wide request metrics, created on first use.
 */
public class RequestMetrics {

    private static volatile RequestMetrics instance;

    private static final class EndpointStats {
        private long count;
        private long totalMillis;
        private long maxMillis;

        synchronized void add(long millis) {
            count++;
            totalMillis += millis;
            maxMillis = Math.max(maxMillis, millis);
        }

        synchronized long count() {
            return count;
        }

        synchronized void clear() {
            count = 0;
            totalMillis = 0;
            maxMillis = 0;
        }
    }

    private final Map<String, EndpointStats> stats = new ConcurrentHashMap<>();
    private final AtomicInteger inFlight = new AtomicInteger();
    private final AtomicLong slowest = new AtomicLong();
    private volatile int errors;

    private RequestMetrics() {
    }

    public static RequestMetrics getInstance() { // accepted
        RequestMetrics m = instance;
        if (m == null) {
            synchronized (RequestMetrics.class) {
                m = instance;
                if (m == null) {
                    m = new RequestMetrics();
                    instance = m;
                }
            }
        }
        return m;
    }

    /** Makes an endpoint visible in the reports before its first request. */
    public void register(String endpoint) { // refused: fault: compound use of the map: containsKey is false, record() creates and counts, then put replaces the stats and the count is lost
        if (!stats.containsKey(endpoint)) {
            stats.put(endpoint, new EndpointStats());
        }
    }

    public void record(String endpoint, long millis) { // refused: alarm: computeIfAbsent, then one synchronized add; an entry with zero counts cannot be told from a missing one, and an add to stats replaced meanwhile counts as done before the replacement
        stats.computeIfAbsent(endpoint, e -> new EndpointStats()).add(millis);
    }

    public void recordError() { // refused: fault: volatile++ is read and write: two threads read 5, both write 6
        errors++;
    }

    public int errors() { // accepted
        return errors;
    }

    public int begin() { // accepted
        return inFlight.incrementAndGet();
    }

    public void end(long millis) { // refused: fault: two atomics one after the other: between them begin() shows the request gone from inFlight while slowestMillis() does not yet include it
        inFlight.decrementAndGet();
        slowest.accumulateAndGet(millis, Math::max);
    }

    public long requestCount(String endpoint) { // refused: alarm: map get, then one look under the monitor of the stats; equivalent to its running at that look (or just before the stats were replaced)
        EndpointStats s = stats.get(endpoint);
        return s == null ? 0 : s.count();
    }

    public Optional<Double> averageMillis(String endpoint) { // refused: fault: count and totalMillis read without the monitor: reset() between the test and the division gives 0/0 = NaN, add() in between gives a torn average
        EndpointStats s = stats.get(endpoint);
        if (s == null || s.count == 0) {
            return Optional.empty();
        }
        return Optional.of((double) s.totalMillis / s.count);
    }

    public long slowestMillis() { // accepted
        return slowest.get();
    }

    public long maxMillis(String endpoint) { // refused: alarm: map get and one look under the monitor of the stats
        EndpointStats s = stats.get(endpoint);
        if (s == null) {
            return 0;
        }
        synchronized (s) {
            return s.maxMillis;
        }
    }

    public void reset(String endpoint) { // refused: alarm: the fields are cleared in one synchronized method of the stats; stats are never removed by it
        EndpointStats s = stats.get(endpoint);
        if (s != null) {
            s.clear();
        }
    }
}
