package com.example.stats;

import java.util.EnumMap;
import java.util.List;
import java.util.Map;
import java.util.concurrent.ConcurrentHashMap;
import java.util.concurrent.ConcurrentMap;
import java.util.concurrent.atomic.AtomicBoolean;
import java.util.concurrent.atomic.AtomicLong;
import java.util.concurrent.atomic.AtomicReference;
import java.util.concurrent.atomic.LongAdder;
import java.util.function.LongSupplier;
import java.util.function.Supplier;

/** The figures of a program, of which most are made when they are first asked for. */
// judged with: --public --infer
public final class StatsHub {

    /** How bad a message is. */
    public enum Level { INFO, WARNING, ERROR }

    /** What was seen in the running minute. */
    private record Window(long minute, long count, long most) {
        static Window at(long minute) {
            return new Window(minute, 0, 0);
        }

        Window plus(long now, long value) {
            Window base = now == minute ? this : at(now);
            return new Window(base.minute, base.count + 1, Math.max(base.most, value));
        }
    }

    /** Values in buckets that grow by two. */
    public static final class Histogram {
        private final long[] buckets = new long[64];
        private long all;

        public synchronized void add(long value) { // accepted
            buckets[63 - Long.numberOfLeadingZeros(Math.max(1, value))]++;
            all++;
        }

        public synchronized long atMost(long value) { // accepted
            long sum = 0;
            for (int k = 0; k < buckets.length && 1L << k <= value; k++) {
                sum += buckets[k];
            }
            return sum;
        }

        public synchronized long[] buckets() { // accepted
            return buckets.clone();
        }

        public long all() { // accepted
            synchronized (this) {
                return all;
            }
        }

        public double share(long value) { // refused: fault: two regions
            return 1.0 * atMost(value) / all();
        }
    }

    /** A counter of its own name. */
    public static final class Counter {
        private final String name;
        private final LongAdder hits = new LongAdder();
        private final AtomicLong most = new AtomicLong();

        private Counter(String name) {
            this.name = name;
        }

        public String name() { // accepted
            return name;
        }

        public void hit() { // accepted
            hits.increment();
        }

        public void see(long value) { // accepted
            most.accumulateAndGet(value, Math::max);
        }

        public void seeBySteps(long value) { // refused: fault: somebody may have seen more in between
            if (value > most.get()) {
                most.set(value);
            }
        }

        public long hits() { // accepted
            return hits.sum();
        }
    }

    private static volatile StatsHub instance;
    private final ConcurrentMap<String, Counter> counters = new ConcurrentHashMap<>();
    private final ConcurrentMap<String, LongSupplier> gauges = new ConcurrentHashMap<>();
    private final Map<Level, Long> levels = new EnumMap<>(Level.class);
    private final AtomicReference<Window> window = new AtomicReference<>(Window.at(0));
    private final AtomicBoolean started = new AtomicBoolean();
    private volatile Histogram histogram;
    private volatile String host;

    private StatsHub() {
    }

    public static StatsHub instance() { // accepted
        StatsHub found = instance;
        if (found == null) {
            synchronized (StatsHub.class) {
                found = instance;
                if (found == null) {
                    found = new StatsHub();
                    instance = found;
                }
            }
        }
        return found;
    }

    public Histogram histogram() { // accepted
        var found = histogram;
        if (found != null) {
            return found;
        }
        synchronized (this) {
            if (histogram == null) {
                histogram = new Histogram();
            }
            return histogram;
        }
    }

    public String host() { // accepted
        if (host == null) {
            synchronized (this) {
                if (host == null) {
                    host = System.getenv().getOrDefault("HOSTNAME", "localhost").toLowerCase();
                }
            }
        }
        return host;
    }

    public Counter counter(String name) { // accepted
        return counters.computeIfAbsent(name, Counter::new);
    }

    public void hit(String name) { // refused: fault: others may see the counter before it is hit
        counter(name).hit();
    }

    public void time(long nanos) { // refused: fault: others may see the histogram before the value is in it
        histogram().add(nanos);
    }

    public void log(Level level) { // accepted
        synchronized (levels) {
            levels.merge(level, 1L, Long::sum);
        }
    }

    public long logged(Level level) { // accepted
        synchronized (levels) {
            return levels.getOrDefault(level, 0L);
        }
    }

    public Map<Level, Long> levels() { // accepted
        synchronized (levels) {
            return Map.copyOf(levels);
        }
    }

    public long troubles() { // refused: fault: two regions
        return logged(Level.WARNING) + logged(Level.ERROR);
    }

    public void see(long minute, long value) { // accepted
        window.updateAndGet(known -> known.plus(minute, value));
    }

    public long inMinute(long minute) { // accepted
        var known = window.get();
        return known.minute() == minute ? known.count() : 0;
    }

    public boolean start() { // accepted
        return started.compareAndSet(false, true);
    }

    public void restart() { // refused: fault: two steps
        if (started.get()) {
            window.set(Window.at(0));
        }
    }

    public void gauge(String name, LongSupplier value) { // accepted
        gauges.put(name, value);
    }

    public long read(String name) { // refused: fault: a look, and then a function that somebody brought
        var gauge = gauges.get(name);
        return gauge == null ? 0 : gauge.getAsLong();
    }

    public List<String> names() { // refused: fault: one counter after the other
        return counters.values().stream().map(Counter::name).sorted().toList();
    }

    public <T> T timed(Supplier<T> work) { // refused: fault: a function of the caller, and then a region
        long begun = System.nanoTime();
        try {
            return work.get();
        } finally {
            time(System.nanoTime() - begun);
        }
    }
}
