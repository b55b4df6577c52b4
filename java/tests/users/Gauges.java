package com.example.gauges;

import java.util.Map;
import java.util.TreeMap;
import java.util.concurrent.ConcurrentHashMap;
import java.util.concurrent.ConcurrentMap;
import java.util.concurrent.atomic.AtomicLong;
import java.util.concurrent.atomic.LongAdder;

/** Counters of a program: made at the first use, and read by whoever wants to know. */
// judged with: --public --infer
public class Gauges {
    private static volatile Gauges instance;

    private final ConcurrentMap<String, LongAdder> counters = new ConcurrentHashMap<>();
    private final AtomicLong started = new AtomicLong(System.nanoTime());
    private volatile Map<String, String> labels;
    private double last;
    private double highest;

    public static Gauges get() { // accepted
        Gauges found = instance;
        if (found == null) {
            synchronized (Gauges.class) {
                found = instance;
                if (found == null) {
                    found = new Gauges();
                    instance = found;
                }
            }
        }
        return found;
    }

    public void count(String name) { // refused: fault: the counter is made in one step and counts in another
        counters.computeIfAbsent(name, key -> new LongAdder()).increment();
    }

    public long sum(String name) { // refused: fault: a sum looks at several cells, one after the other
        LongAdder counter = counters.get(name);
        return counter == null ? 0 : counter.sum();
    }

    public boolean isKnown(String name) { // accepted
        return counters.containsKey(name);
    }

    public synchronized void record(double value) { // accepted
        last = value;
        highest = Math.max(highest, value);
    }

    public synchronized double last() { // accepted
        return last;
    }

    public synchronized double spread() { // accepted
        return highest - last;
    }

    public Map<String, Long> snapshot() { // refused: fault: counters go on while they are read
        Map<String, Long> all = new TreeMap<>();
        counters.forEach((name, counter) -> all.put(name, counter.sum()));
        return all;
    }

    public Map<String, String> labels() { // accepted
        Map<String, String> found = labels;
        if (found == null) {
            synchronized (this) {
                found = labels;
                if (found == null) {
                    found = Map.of("host", "localhost");
                    labels = found;
                }
            }
        }
        return found;
    }

    public long age() { // accepted
        return System.nanoTime() - started.get();
    }

    public void restart() { // refused: fault: the clock and the counters are set one after the other
        started.set(System.nanoTime());
        counters.clear();
    }

    public boolean restartOnce(long before) { // accepted
        return started.compareAndSet(before, System.nanoTime());
    }
}
