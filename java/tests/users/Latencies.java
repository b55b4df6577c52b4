package com.example.latencies;

import java.util.Arrays;
import java.util.EnumMap;
import java.util.Map;
import java.util.concurrent.atomic.AtomicLong;
import java.util.concurrent.atomic.AtomicReference;
import java.util.function.LongSupplier;

/** How long calls take, by their kinds: counts, the longest, and a sorted copy that is made when it is asked for. */
// judged with: --public --infer
public class Latencies {

    /** The kinds of calls. */
    public enum Kind {
        READ, WRITE, ADMIN;

        private int seen;

        synchronized void see() {
            seen++;
        }

        public synchronized int seen() { // accepted
            return seen;
        }
    }

    /** What is known of one kind. */
    private static class Cell {
        long calls;
        long nanos;
        long longest;
    }

    private static volatile Latencies shared;

    private final Map<Kind, Cell> cells = new EnumMap<>(Kind.class);
    private final AtomicLong slowest = new AtomicLong(Long.MIN_VALUE);
    private final AtomicReference<String> lastError = new AtomicReference<>();
    private final LongSupplier clock;
    private volatile long[] sorted;
    private long[] samples = new long[64];
    private int count;

    public Latencies(LongSupplier clock) {
        this.clock = clock;
        for (Kind kind : Kind.values()) {
            cells.put(kind, new Cell());
        }
    }

    public static Latencies shared() { // accepted
        if (shared == null) {
            synchronized (Latencies.class) {
                if (shared == null) {
                    shared = new Latencies(System::nanoTime);
                }
            }
        }
        return shared;
    }

    public synchronized void add(Kind kind, long nanos) { // refused: fault: others may see the sorted copy go before the lock is given back, and the slowest too
        Cell cell = cells.get(kind);
        cell.calls++;
        cell.nanos += nanos;
        cell.longest = Math.max(cell.longest, nanos);
        if (count == samples.length) {
            samples = Arrays.copyOf(samples, 2 * count);
        }
        samples[count++] = nanos;
        sorted = null;
        kind.see();
        noteSlowest(nanos);
    }

    public void noteSlowest(long nanos) { // accepted
        long known;
        do {
            known = slowest.get();
            if (known >= nanos) {
                return;
            }
        } while (!slowest.compareAndSet(known, nanos));
    }

    public long slowest() { // accepted
        return slowest.get();
    }

    public long resetSlowest() { // accepted
        while (true) {
            long known = slowest.get();
            if (slowest.compareAndSet(known, Long.MIN_VALUE)) {
                return known;
            }
        }
    }

    public long slowestOrZero() { // refused: fault: two looks
        return slowest.get() == Long.MIN_VALUE ? 0 : slowest.get();
    }

    public void fail(String text) { // accepted
        lastError.set(text);
    }

    public String takeError() { // accepted
        return lastError.getAndSet(null);
    }

    public String appendError(String more) { // accepted
        return lastError.accumulateAndGet(more, (one, other) -> one == null ? other : one + "; " + other);
    }

    public synchronized long mean(Kind kind) { // accepted
        Cell cell = cells.get(kind);
        return cell.calls == 0 ? 0 : cell.nanos / cell.calls;
    }

    public synchronized long longest(Kind kind) { // accepted
        return cells.get(kind).longest;
    }

    private synchronized long[] copy() {
        long[] copy = Arrays.copyOf(samples, count);
        Arrays.sort(copy);
        return copy;
    }

    public long percentile(int hundredth) { // refused: fault: a copy that is out of date may be kept
        long[] all = sorted;
        if (all == null) {
            all = copy();
            sorted = all;
        }
        return all.length == 0 ? 0 : all[(all.length - 1) * hundredth / 100];
    }

    public long lockedPercentile(int hundredth) { // refused: fault: percentile() sets the field without the lock
        long[] all = sorted;
        if (all == null) {
            synchronized (this) {
                all = sorted;
                if (all == null) {
                    all = copy();
                    sorted = all;
                }
            }
        }
        return all.length == 0 ? 0 : all[(all.length - 1) * hundredth / 100];
    }

    public String summary() { // refused: fault: one look after the other
        StringBuilder text = new StringBuilder();
        for (Kind kind : Kind.values()) {
            text.append("""
                %s: %d ns
                """.formatted(kind, mean(kind)));
        }
        return text.toString();
    }

    public long time(Kind kind, Runnable work) { // refused: fault: the work of others, and then a note of it
        long before = clock.getAsLong();
        work.run();
        long took = clock.getAsLong() - before;
        add(kind, took);
        return took;
    }

    public synchronized void clear() { // accepted
        cells.values().forEach(cell -> {
            cell.calls = 0;
            cell.nanos = 0;
            cell.longest = 0;
        });
        count = 0;
        sorted = null;
    }
}
