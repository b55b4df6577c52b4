// judged with: --public --infer
package com.example.nineteenth;

import java.util.Comparator;
import java.util.Map;
import java.util.Optional;
import java.util.concurrent.ConcurrentHashMap;
import java.util.concurrent.atomic.AtomicInteger;
import java.util.function.Supplier;

/**
 * Timings of the routes of the web server.
 */
public class RequestMetrics {

    public record Summary(String route, long count, long total, long max) { }

    private static final class Timer {
        private long count;
        private long total;
        private long max;

        synchronized void add(long nanos) {
            count++;
            total += nanos;
            max = Math.max(max, nanos);
        }

        synchronized Summary summary(String route) {
            return new Summary(route, count, total, max);
        }
    }

    private static volatile RequestMetrics instance;

    private final ConcurrentHashMap<String, Timer> timers = new ConcurrentHashMap<>();
    private final AtomicInteger inFlight = new AtomicInteger();
    private final AtomicInteger peak = new AtomicInteger();
    private final Supplier<Map<String, Long>> budgetSource;
    private volatile Map<String, Long> budgets;
    private volatile int failures;

    RequestMetrics(Supplier<Map<String, Long>> budgetSource) {
        this.budgetSource = budgetSource;
    }

    public static RequestMetrics shared() { // accepted
        RequestMetrics m = instance;
        if (m == null) {
            synchronized (RequestMetrics.class) {
                m = instance;
                if (m == null) {
                    m = new RequestMetrics(Map::of);
                    instance = m;
                }
            }
        }
        return m;
    }

    public void record(String route, long nanos) { // refused: alarm: creation and add happen inside one compute of the key
        timers.compute(route, (r, t) -> {
            Timer timer = t == null ? new Timer() : t;
            timer.add(nanos);
            return timer;
        });
    }

    public Optional<Summary> summary(String route) { // refused: alarm: one get and then one synchronized read of the timer; a timer that is taken out meanwhile does not change any more, so the result is its state just before
        return Optional.ofNullable(timers.get(route)).map(t -> t.summary(route));
    }

    /** Forgets the routes that were hardly used. */
    public boolean prune(long minCount) { // refused: fault: A's predicate sees count 1, B records the route, A removes the entry with B's new count of the wanted size; also not one snapshot of all routes
        return timers.entrySet().removeIf(e -> {
            Summary s = e.getValue().summary(e.getKey());
            return s.count() < minCount;
        });
    }

    public void enter() { // refused: fault: two atomics: A increments inFlight to 1, B reads inFlight()=1 and peak()=0, A then raises peak
        int now = inFlight.incrementAndGet();
        peak.accumulateAndGet(now, Math::max);
    }

    public void exit() { // accepted
        inFlight.decrementAndGet();
    }

    public void exitFailed() { // refused: fault: failures++ on a volatile: A and B both read 4 and both write 5; also B sees inFlight already lowered and failures not yet raised
        inFlight.decrementAndGet();
        failures++;
    }

    public int inFlight() { // accepted
        return inFlight.get();
    }

    public int peak() { // accepted
        return peak.get();
    }

    public int failures() { // accepted
        return failures;
    }

    public boolean overBudget(String route, long nanos) { // refused: alarm: lazy map, double-checked on a volatile field and immutable afterwards; calls the unknown supplier while holding the lock
        return nanos > budgets().getOrDefault(route, Long.MAX_VALUE);
    }

    public Optional<Summary> slowest() { // refused: fault: weakly consistent iteration: A has passed route a, B records a=100 and then b=50, A meets b and gives b as the slowest, which it never was
        return timers.entrySet().stream()
                .map(e -> e.getValue().summary(e.getKey()))
                .max(Comparator.comparingLong(Summary::max));
    }

    private Map<String, Long> budgets() {
        Map<String, Long> b = budgets;
        if (b == null) {
            synchronized (this) {
                b = budgets;
                if (b == null) {
                    b = Map.copyOf(budgetSource.get());
                    budgets = b;
                }
            }
        }
        return b;
    }
}
