// judged with: --public --infer
package com.example.sixth;

import java.util.HashMap;
import java.util.Map;
import java.util.Optional;
import java.util.OptionalDouble;
import java.util.concurrent.ConcurrentHashMap;
import java.util.stream.Collectors;

/** Process-wide request metrics. */
public final class RequestMetrics {

    record Summary(long count, long totalMillis) { }

    private static final class Stat {
        long count;
        long totalMillis;
    }

    private static volatile RequestMetrics instance;

    private final Object statsLock = new Object();
    private final Map<String, Stat> stats = new HashMap<>();
    private Map<String, String> tags;
    private volatile long maxMillis;
    private volatile long errors;
    private volatile boolean enabled = true;

    private RequestMetrics() { }

    public static RequestMetrics getInstance() { // accepted
        RequestMetrics local = instance;
        if (local == null) {
            synchronized (RequestMetrics.class) {
                local = instance;
                if (local == null) {
                    local = new RequestMetrics();
                    instance = local;
                }
            }
        }
        return local;
    }

    public void record(String endpoint, long millis) { // accepted
        synchronized (statsLock) {
            if (!enabled) {
                return;
            }
            Stat stat = stats.computeIfAbsent(endpoint, k -> new Stat());
            stat.count++;
            stat.totalMillis += millis;
        }
    }

    public long count(String endpoint) { // accepted
        synchronized (statsLock) {
            Stat stat = stats.get(endpoint);
            return stat == null ? 0 : stat.count;
        }
    }

    public OptionalDouble meanMillis(String endpoint) { // accepted
        synchronized (statsLock) {
            Stat stat = stats.get(endpoint);
            return stat == null ? OptionalDouble.empty()
                    : OptionalDouble.of((double) stat.totalMillis / stat.count);
        }
    }

    public long millis(String endpoint) { // accepted
        synchronized (statsLock) {
            return Optional.ofNullable(stats.get(endpoint)).map(s -> s.totalMillis).orElse(0L);
        }
    }

    public long totalMillis() { // refused: fault: one region per endpoint: a=10 and b=10, it reads a=10, another thread does record(a,1) then record(b,2), it reads b=12: 22, while the totals were 20, 21, 23
        long total = 0;
        for (String endpoint : endpointNames()) {
            total += millis(endpoint);
        }
        return total;
    }

    public Map<String, Summary> snapshot() { // accepted
        synchronized (statsLock) {
            return stats.entrySet().stream().collect(Collectors.toUnmodifiableMap(
                    Map.Entry::getKey,
                    e -> new Summary(e.getValue().count, e.getValue().totalMillis)));
        }
    }

    public void observeLatency(long millis) { // refused: fault: check-then-act on a volatile: thread 1 (5) finds 5 > 0, thread 2 (9) writes 9, thread 1 writes 5: maxMillis() is 5 after 9 was observed
        if (millis > maxMillis) {
            maxMillis = millis;
        }
    }

    public long maxMillis() { // accepted
        return maxMillis;
    }

    public void countError() { // refused: fault: errors++ on a volatile: two threads read 0, both write 1, errors() is 1 after two calls
        errors++;
    }

    public long errors() { // accepted
        return errors;
    }

    public void resetErrors() { // accepted
        errors = 0;
    }

    public long errorsAndReset() { // refused: fault: countError() between the read and the write of 0 is lost: returns 1, errors() is 0 afterwards, but two errors were counted
        long seen = errors;
        errors = 0;
        return seen;
    }

    public Map<String, String> tags() { // refused: fault: unsafe lazy initialisation: two threads see null and get different maps, what one puts into its map the next tags() does not show
        if (tags == null) {
            tags = new ConcurrentHashMap<>();
        }
        return tags;
    }

    public void setEnabled(boolean on) { // accepted
        enabled = on;
    }

    public boolean isEnabled() { // accepted
        return enabled;
    }

    public boolean toggle() { // refused: fault: two threads toggle at once from true: both read true, both write false, final false instead of true
        enabled = !enabled;
        return enabled;
    }

    private String[] endpointNames() {
        synchronized (statsLock) {
            return stats.keySet().toArray(String[]::new);
        }
    }
}
