package com.example.rates;

import java.util.Arrays;
import java.util.LongSummaryStatistics;
import java.util.Map;
import java.util.SortedMap;
import java.util.TreeMap;
import java.util.concurrent.ConcurrentHashMap;
import java.util.concurrent.atomic.AtomicInteger;
import java.util.concurrent.atomic.AtomicLong;
import java.util.concurrent.atomic.AtomicLongArray;
import java.util.concurrent.atomic.AtomicReference;
import java.util.concurrent.atomic.LongAdder;
import java.util.function.LongConsumer;
import java.util.function.Supplier;

/** How often things happen. What is dear to make is made when it is first asked for. */
// judged with: --public --infer
public class Rates {

    /** A value that is computed once. */
    public static final class Lazy<T> implements Supplier<T> {
        private final Supplier<? extends T> maker;
        private volatile boolean done;
        private T value;

        public Lazy(Supplier<? extends T> maker) {
            this.maker = maker;
        }

        @Override
        public T get() { // refused: fault: the maker of the caller is run in the middle
            if (!done) {
                synchronized (this) {
                    if (!done) {
                        value = maker.get();
                        done = true;
                    }
                }
            }
            return value;
        }

        public boolean isDone() { // accepted
            return done;
        }
    }

    /** What was seen so far. */
    public record Seen(long count, long sum) {
        public static final Seen NOTHING = new Seen(0, 0);

        public Seen and(long value) { // accepted
            return new Seen(count + 1, sum + value);
        }

        public double mean() { // accepted
            return count == 0 ? 0 : (double) sum / count;
        }
    }

    private static volatile Rates shared;
    private final AtomicReference<Seen> seen = new AtomicReference<>(Seen.NOTHING);
    private final AtomicLongArray buckets = new AtomicLongArray(16);
    private final Map<String, LongAdder> adders = new ConcurrentHashMap<>();
    private final ConcurrentHashMap<String, AtomicInteger> levels = new ConcurrentHashMap<>();
    private final AtomicLong last = new AtomicLong();
    private final LongSummaryStatistics summary = new LongSummaryStatistics();
    private long[] window;
    private int at;

    public static Rates shared() { // accepted
        Rates known = shared;
        if (known != null) {
            return known;
        }
        synchronized (Rates.class) {
            if (shared == null) {
                shared = new Rates();
            }
            return shared;
        }
    }

    public void see(long value) { // accepted
        seen.accumulateAndGet(new Seen(1, value), (one, other) -> new Seen(one.count() + other.count(), one.sum() + other.sum()));
    }

    public void seeByLoop(long value) { // accepted
        while (true) {
            Seen old = seen.get();
            if (seen.compareAndSet(old, old.and(value))) {
                return;
            }
        }
    }

    public double mean() { // accepted
        return seen.get().mean();
    }

    public double meanBySteps() { // refused: fault: two looks
        return (double) seen.get().sum() / seen.get().count();
    }

    public void count(int bucket) { // accepted
        buckets.incrementAndGet(Math.floorMod(bucket, buckets.length()));
    }

    public long[] buckets() { // refused: fault: one bucket after the other
        long[] all = new long[buckets.length()];
        for (int k = 0; k < all.length; k++) {
            all[k] = buckets.get(k);
        }
        return all;
    }

    public void hit(String name) { // refused: fault: others may see the adder before it counts
        adders.computeIfAbsent(name, key -> new LongAdder()).increment();
    }

    public int level(String name) { // refused: fault: the level is found in one step and looked at in another
        AtomicInteger level = levels.get(name);
        return level == null ? 0 : level.get();
    }

    public void raise(String name) { // refused: alarm: it looks at a level within the map's call, and others only look at it
        levels.merge(name, new AtomicInteger(1), (old, one) -> new AtomicInteger(old.get() + 1));
    }

    public boolean isNew(long time) { // accepted
        long before;
        do {
            before = last.get();
            if (before >= time) {
                return false;
            }
        } while (!last.compareAndSet(before, time));
        return true;
    }

    public synchronized void slide(long value) { // accepted
        if (window == null) {
            window = new long[8];
        } else if (at == window.length) {
            window = Arrays.copyOf(window, 2 * window.length);
        }
        window[at++] = value;
        summary.accept(value);
    }

    public synchronized long slid() { // accepted
        return window == null ? 0 : Arrays.stream(window, 0, at).sum();
    }

    public synchronized double average() { // accepted
        return summary.getAverage();
    }

    public synchronized void slideAll(long[] values, LongConsumer tell) { // accepted
        for (long each : values) {
            slide(each);
            tell.accept(each);
        }
    }

    public SortedMap<String, Long> totals() { // refused: fault: one adder after the other
        var all = new TreeMap<String, Long>();
        adders.forEach((name, adder) -> all.put(name, adder.sum()));
        return all;
    }

    public void reset() { // refused: fault: one after the other
        seen.set(Seen.NOTHING);
        adders.clear();
    }
}
