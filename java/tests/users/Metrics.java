package com.example.metrics;

import java.util.ArrayList;
import java.util.HashMap;
import java.util.List;
import java.util.Map;
import java.util.concurrent.ConcurrentHashMap;
import java.util.concurrent.ConcurrentMap;
import java.util.concurrent.atomic.AtomicLong;

/** Counters and gauges of a program, with one instance that is made at its first use. */
// judged with: --public --infer
public final class Metrics {
    private static volatile Metrics instance;

    private final ConcurrentMap<String, AtomicLong> counters = new ConcurrentHashMap<>();
    private final Map<String, Double> gauges = new HashMap<>();
    private final List<String> log = new ArrayList<>();
    private volatile boolean enabled = true;
    private long lastReset = System.currentTimeMillis();

    private Metrics() {
    }

    public static Metrics getInstance() { // accepted
        Metrics found = instance;
        if (found == null) {
            synchronized (Metrics.class) {
                found = instance;
                if (found == null) {
                    found = new Metrics();
                    instance = found;
                }
            }
        }
        return found;
    }

    public boolean isEnabled() { // accepted
        return enabled;
    }

    public void setEnabled(boolean enabled) { // accepted
        this.enabled = enabled;
    }

    public long increment(String name) { // refused: fault: the counter is put into the map in one step and counts in the next
        return counters.computeIfAbsent(name, unused -> new AtomicLong()).incrementAndGet();
    }

    public void incrementIfEnabled(String name) { // refused: fault: it may be disabled between the look and the step
        if (enabled) {
            increment(name);
        }
    }

    public long count(String name) { // refused: fault: the counter is looked up in one step and read in another
        AtomicLong counter = counters.get(name);
        return counter == null ? 0 : counter.get();
    }

    public Map<String, Long> snapshot() { // refused: fault: counters go on while they are copied
        Map<String, Long> copy = new HashMap<>();
        counters.forEach((name, counter) -> copy.put(name, counter.get()));
        return copy;
    }

    public synchronized void gauge(String name, double value) { // accepted
        gauges.put(name, value);
        log.add(name + "=" + value);
    }

    public synchronized double gauge(String name) { // accepted
        return gauges.getOrDefault(name, Double.NaN);
    }

    public synchronized List<String> log() { // accepted
        return new ArrayList<>(log);
    }

    public synchronized void reset() { // refused: fault: counters are shared with increment, which takes no lock
        counters.clear();
        gauges.clear();
        log.clear();
        lastReset = System.currentTimeMillis();
        enabled = true;
    }

    public synchronized long sinceReset() { // accepted
        return System.currentTimeMillis() - lastReset;
    }
}
