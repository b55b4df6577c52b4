// judged with: --public --infer
package com.example.second;

import java.util.List;
import java.util.Map;
import java.util.Optional;
import java.util.concurrent.ConcurrentHashMap;
import java.util.concurrent.CopyOnWriteArrayList;
import java.util.concurrent.atomic.AtomicBoolean;
import java.util.concurrent.atomic.AtomicReference;
import java.util.function.LongConsumer;

/** Count, sum and range of samples, held as one immutable value. */
public class RunningStats {
    public record Summary(long count, long sum, long min, long max) {
        static final Summary NONE = new Summary(0, 0, Long.MAX_VALUE, Long.MIN_VALUE);

        Summary plus(long v) {
            return new Summary(count + 1, sum + v, Math.min(min, v), Math.max(max, v));
        }

        Summary plus(Summary o) {
            return new Summary(count + o.count, sum + o.sum, Math.min(min, o.min), Math.max(max, o.max));
        }

        double mean() { return count == 0 ? 0 : (double) sum / count; }
    }

    private static class Holder {
        static final RunningStats GLOBAL = new RunningStats();
    }

    private static final Map<String, RunningStats> NAMED = new ConcurrentHashMap<>();

    private final AtomicReference<Summary> state = new AtomicReference<>(Summary.NONE);
    private final List<LongConsumer> alarms = new CopyOnWriteArrayList<>();
    private final AtomicBoolean tripped = new AtomicBoolean();
    private volatile long limit = Long.MAX_VALUE;
    private volatile int resets;

    public static RunningStats global() { return Holder.GLOBAL; } // accepted

    public static RunningStats named(String name) { // refused: alarm: one computeIfAbsent
        return NAMED.computeIfAbsent(name, n -> new RunningStats());
    }

    public static RunningStats register(String name, RunningStats s) { // refused: fault: containsKey, put, get
        if (!NAMED.containsKey(name)) {
            NAMED.put(name, s);
        }
        return NAMED.get(name);
    }

    public static boolean rename(String from, String to) { // refused: fault: remove, then put
        RunningStats s = NAMED.remove(from);
        return s != null && NAMED.put(to, s) == null;
    }

    public static Optional<Summary> lookup(String name) { // refused: fault: the entry is looked up, then its state read, and entries can go
        return Optional.ofNullable(NAMED.get(name)).map(s -> s.state.get());
    }

    public void add(long v) { // accepted
        state.updateAndGet(s -> s.plus(v));
    }

    public void addAll(long... vs) { // accepted
        Summary batch = Summary.NONE;
        for (long v : vs) batch = batch.plus(v);
        state.accumulateAndGet(batch, Summary::plus);
    }

    public void addChecked(long v) { // refused: fault: limit, tripped, the listeners and state in turn
        if (v > limit && tripped.compareAndSet(false, true)) {
            alarms.forEach(a -> a.accept(v));
        }
        add(v);
    }

    public boolean addIfInRange(long v) { // accepted
        while (true) {
            Summary s = state.get();
            if (v < s.min() || v > s.max()) return false;
            if (state.compareAndSet(s, s.plus(v))) return true;
        }
    }

    public void absorb(RunningStats other) { // refused: fault: two atomics of two objects
        Summary o = other.state.get();
        state.updateAndGet(s -> s.plus(o));
    }

    public Summary summary() { return state.get(); } // accepted

    public double mean() { return state.get().mean(); } // accepted

    public long range() { return state.get().max() - state.get().min(); } // refused: fault: two reads

    public Summary reset() { // refused: fault: resets++ on a volatile isn't one step, and state is a second one
        resets++;
        return state.getAndSet(Summary.NONE);
    }

    public boolean rearm() { return tripped.compareAndSet(true, false); } // accepted

    public void setLimit(long limit) { this.limit = limit; } // accepted

    public void onAlarm(LongConsumer a) { alarms.add(a); } // accepted

    public void setLimitFromMean(double factor) { limit = (long) (mean() * factor); } // refused: fault: state is read, then limit written

    public int resets() { return resets; } // accepted
}
