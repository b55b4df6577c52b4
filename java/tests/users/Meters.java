package com.example.meters;

import java.util.ArrayList;
import java.util.Collections;
import java.util.List;
import java.util.LongSummaryStatistics;
import java.util.Map;
import java.util.TreeMap;
import java.util.concurrent.ConcurrentHashMap;
import java.util.concurrent.ConcurrentMap;
import java.util.concurrent.CopyOnWriteArrayList;
import java.util.concurrent.atomic.AtomicLong;
import java.util.concurrent.atomic.AtomicReference;
import java.util.concurrent.atomic.LongAdder;
import java.util.function.Consumer;
import java.util.function.ToLongFunction;

/** Meters by their names, which are made when they are first asked for. */
// judged with: --public --infer
public final class Meters {

    /** What a meter has seen, at one moment. */
    public record Reading(long count, long sum, long most) {
        static final Reading NONE = new Reading(0, 0, Long.MIN_VALUE);

        Reading with(long value) {
            return new Reading(count + 1, sum + value, Math.max(most, value));
        }

        public double mean() { // accepted
            return count == 0 ? Double.NaN : 1.0 * sum / count;
        }
    }

    /** One meter, whose reading is taken whole. */
    public static final class Meter {
        private final String name;
        private final AtomicReference<Reading> reading = new AtomicReference<>(Reading.NONE);
        private final LongAdder failures = new LongAdder();

        private Meter(String name) {
            this.name = name;
        }

        public String name() { // accepted
            return name;
        }

        public void see(long value) { // accepted
            reading.updateAndGet(known -> known.with(value));
        }

        public boolean seeIfMore(long value) { // accepted
            for (;;) {
                var known = reading.get();
                if (value <= known.most()) {
                    return false;
                }
                if (reading.compareAndSet(known, known.with(value))) {
                    return true;
                }
            }
        }

        public void fail() { // accepted
            failures.increment();
        }

        public Reading reading() { // accepted
            return reading.get();
        }

        public double mean() { // accepted
            return reading().mean();
        }

        public double share() { // refused: fault: two looks at different moments
            return 1.0 * failures.sum() / reading().count();
        }

        public Reading reset() { // refused: fault: the failures go before the reading
            failures.reset();
            return reading.getAndSet(Reading.NONE);
        }
    }

    /** The one that all of a program share, made when it is first asked for. */
    private static final class Shared {
        static final Meters ALL = new Meters();
    }

    private static final AtomicLong CREATED = new AtomicLong();
    private final ConcurrentMap<String, Meter> meters = new ConcurrentHashMap<>();
    private final List<Consumer<? super Meter>> watchers = new CopyOnWriteArrayList<>();
    private volatile Map<String, String> labels;
    private LongSummaryStatistics totals;
    private volatile boolean frozen;

    public static Meters shared() { // accepted
        return Shared.ALL;
    }

    public Meter meter(String name) { // accepted
        return meters.computeIfAbsent(name, Meter::new);
    }

    public Meter meterOrNull(String name) { // accepted
        return meters.get(name);
    }

    public Meter create(String name) { // refused: fault: the counter goes up, and then the watchers are told
        var made = new Meter(name);
        if (meters.putIfAbsent(name, made) != null) {
            throw new IllegalArgumentException(name + " is there");
        }
        CREATED.incrementAndGet();
        watchers.forEach(each -> each.accept(made));
        return made;
    }

    public static long created() { // accepted
        return CREATED.get();
    }

    public void watch(Consumer<? super Meter> watcher) { // accepted
        watchers.add(watcher);
    }

    public Map<String, String> labels() { // accepted
        Map<String, String> known = labels;
        if (known == null) {
            synchronized (this) {
                known = labels;
                if (known == null) {
                    labels = known = loaded();
                }
            }
        }
        return known;
    }

    private static Map<String, String> loaded() {
        var all = new TreeMap<String, String>();
        all.put("host", "here");
        return Collections.unmodifiableMap(all);
    }

    public LongSummaryStatistics totals() { // refused: fault: it looks without the lock at a field that isn't volatile, and gives what others change
        if (totals == null) {
            synchronized (this) {
                if (totals == null) {
                    totals = new LongSummaryStatistics();
                }
            }
        }
        return totals;
    }

    public synchronized void total(long value) { // refused: fault: totals() gives the object away, so others see it change
        totals().accept(value);
        frozen = false;
    }

    public void freeze() { // accepted
        frozen = true;
    }

    public boolean see(String name, long value) { // refused: fault: a look, the meter, and its change are three steps
        if (frozen) {
            return false;
        }
        meter(name).see(value);
        return true;
    }

    public long sum(ToLongFunction<? super Meter> value) { // refused: fault: one meter after the other, and the caller's function
        return meters.values().stream().mapToLong(value).sum();
    }

    public List<Reading> readings() { // refused: fault: one meter after the other
        var all = new ArrayList<Reading>();
        for (var each : meters.values()) {
            all.add(each.reading());
        }
        return all;
    }

    public int size() { // refused: fault: the size of a concurrent map is a sum of counters that change meanwhile
        return meters.size();
    }
}
