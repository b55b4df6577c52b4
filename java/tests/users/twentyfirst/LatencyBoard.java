// judged with: --public --infer
package com.example.twentyfirst;

import java.util.Arrays;
import java.util.Map;
import java.util.concurrent.ConcurrentHashMap;
import java.util.concurrent.atomic.AtomicLong;
import java.util.concurrent.atomic.AtomicReference;

/**
 * Latencies of the backends, for the operations board.
 */
public class LatencyBoard {

    public enum Grade { GOOD, SLOW, BAD }

    public record Line(String backend, long samples, double mean, Grade grade) { }

    private static final class Window {
        private final long[] values = new long[128];
        private long samples;

        synchronized void add(long micros) {
            values[(int) (samples++ % values.length)] = micros;
        }

        synchronized double mean() {
            return Arrays.stream(values).limit(samples).average().orElse(0);
        }

        synchronized long samples() {
            return samples;
        }

        synchronized long[] copy() {
            return Arrays.copyOf(values, (int) Math.min(samples, values.length));
        }
    }

    private static LatencyBoard board;

    private final Map<String, Window> windows = new ConcurrentHashMap<>();
    private final AtomicLong worst = new AtomicLong();
    private final AtomicReference<String> title = new AtomicReference<>("latency");
    private final Object thresholdLock = new Object();
    private long slowFrom = 1_000;
    private long badFrom = 10_000;
    private volatile long[] edges;

    LatencyBoard() { }

    public static synchronized LatencyBoard get() { // accepted
        if (board == null) {
            board = new LatencyBoard();
        }
        return board;
    }

    public void setThresholds(long slow, long bad) { // accepted
        synchronized (thresholdLock) {
            slowFrom = slow;
            badFrom = bad;
        }
    }

    public Grade grade(double micros) { // accepted
        synchronized (thresholdLock) {
            return micros >= badFrom ? Grade.BAD : micros >= slowFrom ? Grade.SLOW : Grade.GOOD;
        }
    }

    public void record(String backend, long micros) { // refused: alarm: computeIfAbsent, then one synchronized add; an empty window cannot be told from none but by forget, and a window forgotten meanwhile counts as recorded just before that
        windows.computeIfAbsent(backend, b -> new Window()).add(micros);
    }

    public void noteWorst(long micros) { // accepted
        worst.accumulateAndGet(micros, Math::max);
    }

    public long takeWorst() { // accepted
        return worst.getAndSet(0);
    }

    public double mean(String backend) { // refused: alarm: one get, one synchronized look at the window
        Window w = windows.get(backend);
        return w == null ? 0 : w.mean();
    }

    public Line line(String backend) { // refused: fault: two regions: A reads mean 10 of one sample, B records 30, A reads 2 samples: 2 samples of mean 10 never were
        Window w = windows.get(backend);
        if (w == null) {
            return new Line(backend, 0, 0, Grade.GOOD);
        }
        double mean = w.mean();
        return new Line(backend, w.samples(), mean, grade(mean));
    }

    public long percentile(String backend, double p) { // refused: alarm: one get, one synchronized copy, the rest works on the copy
        Window w = windows.get(backend);
        if (w == null) {
            return 0;
        }
        long[] sorted = w.copy();
        Arrays.sort(sorted);
        return sorted.length == 0 ? 0 : sorted[(int) (p * (sorted.length - 1))];
    }

    public boolean forget(String backend) { // accepted
        return windows.remove(backend) != null;
    }

    public String title() { // accepted
        return title.get();
    }

    public void appendToTitle(String suffix) { // refused: fault: get then set: A and B both read the old title, one suffix is lost
        title.set(title.get() + suffix);
    }

    /** Edges of the histogram, worked out on first use. */
    public long[] edges() { // refused: fault: the lazy making is right (double-checked, volatile) but the inner array itself is handed out: A writes into the result, B's edges() shows it
        long[] e = edges;
        if (e == null) {
            synchronized (this) {
                e = edges;
                if (e == null) {
                    e = new long[20];
                    Arrays.setAll(e, i -> 1L << i);
                    edges = e;
                }
            }
        }
        return e;
    }
}
