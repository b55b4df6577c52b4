// judged with: --public --infer
package com.example.seventeenth;

import java.util.ArrayList;
import java.util.Arrays;
import java.util.Iterator;
import java.util.List;
import java.util.NoSuchElementException;
import java.util.Optional;
import java.util.function.Consumer;

/**
 * Sliding window over the last readings of a sensor.
 */
public class TelemetryWindow implements Iterable<TelemetryWindow.Reading> {

    public record Reading(long time, double value) { }

    public record Summary(int count, double min, double max, double mean) { }

    private final Reading[] window;
    private final double threshold;
    private final List<Consumer<Reading>> alarms = new ArrayList<>();
    private int next;
    private int filled;
    private double sum;

    private TelemetryWindow(Builder builder) {
        this.window = new Reading[builder.size];
        this.threshold = builder.threshold;
    }

    public void add(Reading reading) { // refused: fault: the window is changed in one region, but then the ArrayList of alarms is iterated without the lock: B's onAlarm in the middle gives ConcurrentModificationException (reading stored, method throws)
        synchronized (this) {
            if (filled == window.length) {
                sum -= window[next].value();
            } else {
                filled++;
            }
            window[next] = reading;
            next = (next + 1) % window.length;
            sum += reading.value();
        }
        if (reading.value() > threshold) {
            alarms.forEach(alarm -> alarm.accept(reading));
        }
    }

    public synchronized void onAlarm(Consumer<Reading> alarm) { // accepted
        alarms.add(alarm);
    }

    public synchronized Optional<Reading> latest() { // accepted
        return filled == 0
                ? Optional.empty()
                : Optional.of(window[(next + window.length - 1) % window.length]);
    }

    public synchronized List<Reading> between(long from, long to) { // accepted
        return Arrays.stream(window, 0, filled)
                .filter(r -> r.time() >= from && r.time() < to)
                .toList();
    }

    public synchronized Summary summary() { // refused: alarm: synchronized, mean() and its getters re-enter the held monitor
        var stats = Arrays.stream(window, 0, filled).mapToDouble(Reading::value).summaryStatistics();
        return new Summary(filled, stats.getMin(), stats.getMax(), mean());
    }

    public double mean() { // refused: fault: three regions: A reads sum 30 of three readings, B adds 10, A divides by 4 and gives 7.5 (neither 10 before nor 10 after)
        return count() == 0 ? Double.NaN : sum() / count();
    }

    public synchronized int count() { // accepted
        return filled;
    }

    public synchronized double sum() { // accepted
        return sum;
    }

    @Override
    public Iterator<Reading> iterator() { // refused: fault: the iterator reads filled, next and window live and without the lock: B's add between two next() calls makes A skip or repeat a reading
        return new Iterator<>() {
            private int seen;

            @Override
            public boolean hasNext() { // refused: fault: a caller holds no lock
                return seen < filled;
            }

            @Override
            public Reading next() { // refused: fault: a caller holds no lock
                if (!hasNext()) {
                    throw new NoSuchElementException();
                }
                return window[(next - filled + seen++ + window.length) % window.length];
            }
        };
    }

    /** Settings of a window; build as many windows as needed from one builder. */
    public static final class Builder {
        private int size = 60;
        private double threshold = Double.POSITIVE_INFINITY;

        public Builder size(int size) { // accepted
            this.size = size;
            return this;
        }

        public Builder threshold(double threshold) { // refused: doubtful: plain unlocked write; a builder is confined to one thread by convention, which nothing enforces
            this.threshold = threshold;
            return this;
        }

        public TelemetryWindow build() { // refused: doubtful: reads two plain fields (a mix of two settings if shared between threads); a builder is confined to one thread by convention
            return new TelemetryWindow(this);
        }
    }
}
