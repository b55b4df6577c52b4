// judged with: --public --infer
package com.example.fifth;

import java.util.Comparator;
import java.util.EnumMap;
import java.util.List;
import java.util.Map;
import java.util.concurrent.ConcurrentHashMap;
import java.util.concurrent.ConcurrentMap;
import java.util.concurrent.atomic.AtomicBoolean;
import java.util.concurrent.atomic.AtomicLongFieldUpdater;
import java.util.function.Supplier;

/** Counters, gauges and alarms of a service. */
public class Meters {

    public enum Level { INFO, WARNING, ERROR }

    /** A value that is made when it is first asked for. */
    static final class Lazy<T> implements Supplier<T> {
        private Supplier<? extends T> maker;
        private volatile T value;

        Lazy(Supplier<? extends T> maker) { this.maker = maker; }

        @Override public T get() { // refused: alarm: (hard: double-checked locking on a volatile)
            if (value == null) {
                synchronized (this) {
                    if (value == null) {
                        value = maker.get();
                        maker = null;
                    }
                }
            }
            return value;
        }
    }

    private static final AtomicLongFieldUpdater<Meters> REQUESTS =
            AtomicLongFieldUpdater.newUpdater(Meters.class, "requests");

    private final String service;
    private final ConcurrentMap<String, Long> counters = new ConcurrentHashMap<>();
    private final ConcurrentMap<String, Long> gauges = new ConcurrentHashMap<>();
    private final Map<Level, Long> alarms = new EnumMap<>(Level.class);
    private final Lazy<String> banner = new Lazy<>(this::makeBanner);
    private final AtomicBoolean started = new AtomicBoolean();
    private volatile long startedAt;
    private volatile long requests;
    private int hash;

    public Meters(String service) { this.service = service; }

    public boolean start(long now) { // refused: fault: CAS and then a volatile write
        if (!started.compareAndSet(false, true)) return false;
        startedAt = now;
        return true;
    }

    public long uptime(long now) { return started.get() ? now - startedAt : 0; } // refused: alarm: (hard: two reads), because `started` never goes back to false: when it reads true, the whole counts at the sec

    public long request() { return REQUESTS.incrementAndGet(this); } // refused: alarm: one incrementAndGet by the updater

    public void skipRequest() { requests++; } // refused: fault: `++` on a volatile: read and write

    public void count(String counter) { counters.merge(counter, 1L, Long::sum); } // accepted

    public long counter(String counter) { return counters.getOrDefault(counter, 0L); } // accepted

    public boolean countUpTo(String counter, long limit) { // refused: alarm: (hard), one compute, which runs once and under the bin's lock
        long[] added = {0};
        counters.compute(counter, (k, v) -> {
            added[0] = v == null || v < limit ? 1 : 0;
            return v == null ? added[0] : v + added[0];
        });
        return added[0] == 1;
    }

    public List<String> busiest(int n) { // refused: fault: weakly consistent iteration over the map
        return counters.entrySet().stream()
                .sorted(Map.Entry.comparingByValue(Comparator.reverseOrder()))
                .limit(n).map(Map.Entry::getKey).toList();
    }

    public long adjust(String gauge, long delta) { // refused: fault: get and put are two operations of the map: lost update
        long fresh = gauges.getOrDefault(gauge, 0L) + delta;
        gauges.put(gauge, fresh);
        return fresh;
    }

    public void set(String gauge, long value) { gauges.put(gauge, value); } // accepted

    public boolean drop(String gauge) { return gauges.remove(gauge) != null; } // accepted

    public void alarm(Level level) { // accepted
        synchronized (alarms) { alarms.merge(level, 1L, Long::sum); }
    }

    public boolean isHealthy() { // accepted
        synchronized (alarms) {
            return alarmsFrom(Level.WARNING) < 10 && alarmsFrom(Level.ERROR) == 0;
        }
    }

    public Map<Level, Long> alarms() { return alarms; } // refused: fault: it leaks the guarded EnumMap: a client's read or iteration without the

    public String banner() { return banner.get(); } // refused: alarm: one call of Lazy.get()

    private String makeBanner() { return "=== " + service + " ==="; }

    private long alarmsFrom(Level least) {
        return alarms.entrySet().stream().filter(e -> e.getKey().compareTo(least) >= 0)
                .mapToLong(Map.Entry::getValue).sum();
    }

    @Override public int hashCode() { // refused: fault: data race on `hash` (plain, benign as in String, but read twice)
        if (hash == 0) hash = service.hashCode();
        return hash;
    }
}
