// judged with: --public --infer
package com.example.fifteenth;

import java.time.Duration;
import java.util.Arrays;
import java.util.LinkedHashMap;
import java.util.Map;
import java.util.concurrent.ConcurrentHashMap;
import java.util.concurrent.atomic.AtomicReference;
import java.util.concurrent.atomic.LongAdder;
import java.util.function.BiFunction;
import java.util.stream.IntStream;

/**
 * Playback quality figures of the streaming clients.
 */
public final class PlaybackMetrics {

    /** Immutable figures of one title. */
    public record TitleFigures(int plays, int stalls, Duration watched) {
        static final TitleFigures NONE = new TitleFigures(0, 0, Duration.ZERO);

        TitleFigures plus(TitleFigures o) {
            return new TitleFigures(plays + o.plays, stalls + o.stalls, watched.plus(o.watched));
        }
    }

    private static final class Holder {
        private static final PlaybackMetrics INSTANCE = new PlaybackMetrics();
    }

    private static final int[] BOUNDS = {100, 250, 500, 1_000, 2_500, 5_000};

    private final ConcurrentHashMap<String, TitleFigures> titles = new ConcurrentHashMap<>();
    private final AtomicReference<TitleFigures> total = new AtomicReference<>(TitleFigures.NONE);
    private final long[] startup = new long[BOUNDS.length + 1];
    private final LongAdder crashes = new LongAdder();
    private Map<String, String> labels;

    private PlaybackMetrics() {
    }

    public static PlaybackMetrics get() { // accepted
        return Holder.INSTANCE;
    }

    public void played(String title, Duration watched, int stalls) { // refused: fault: two atomics one after the other: between them figures(title) shows the play and total() does not
        TitleFigures one = new TitleFigures(1, stalls, watched);
        titles.merge(title, one, TitleFigures::plus);
        total.updateAndGet(t -> t.plus(one));
    }

    public TitleFigures total() { // accepted
        return total.get();
    }

    public TitleFigures figures(String title) { // accepted
        return titles.getOrDefault(title, TitleFigures.NONE);
    }

    public TitleFigures adjust(String title, BiFunction<String, TitleFigures, TitleFigures> fn) { // refused: alarm: one compute; the alien function runs inside it while the bin is locked
        return titles.compute(title, (k, old) -> fn.apply(k, old == null ? TitleFigures.NONE : old));
    }

    /** Forgets a title and returns its last figures. */
    public TitleFigures retire(String title) { // refused: fault: get and remove are two operations: played() merges in between and its play is neither returned nor kept
        TitleFigures last = figures(title);
        titles.remove(title);
        return last;
    }

    public void started(long millis) { // accepted
        int at = Arrays.binarySearch(BOUNDS, (int) Math.min(millis, Integer.MAX_VALUE));
        int bucket = at >= 0 ? at : -at - 1;
        synchronized (startup) {
            startup[bucket]++;
        }
    }

    public long[] startupHistogram() { // accepted
        synchronized (startup) {
            return startup.clone();
        }
    }

    public double shareSlowerThan(int bucket) { // refused: fault: the sum is of a copy, then startup is read again without lock: started() in between makes a share above 1, resetStartup() a share of 0
        long all = Arrays.stream(startupHistogram()).sum();
        long slow = IntStream.range(bucket, startup.length).mapToLong(i -> startup[i]).sum();
        return all == 0 ? 0 : (double) slow / all;
    }

    public void crashed() { // accepted
        crashes.increment();
    }

    public void resetStartup() { // accepted
        synchronized (startup) {
            Arrays.fill(startup, 0L);
        }
    }

    /** Labels for the dashboard, built on first use. */
    public Map<String, String> labels() { // refused: fault: double-checked locking without volatile: the first look may see the map and the second (the returned one) still null; the Java memory model allows it
        if (labels == null) {
            synchronized (this) {
                if (labels == null) {
                    Map<String, String> m = new LinkedHashMap<>();
                    for (int b : BOUNDS) {
                        m.put("le_" + b, "up to " + b + " ms");
                    }
                    labels = Map.copyOf(m);
                }
            }
        }
        return labels;
    }
}
