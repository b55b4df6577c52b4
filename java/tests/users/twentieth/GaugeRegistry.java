// judged with: --public --infer
package com.example.twentieth;

import java.time.Instant;
import java.util.Map;
import java.util.Optional;
import java.util.Set;
import java.util.SortedMap;
import java.util.TreeMap;
import java.util.concurrent.ConcurrentHashMap;
import java.util.concurrent.atomic.LongAdder;
import java.util.function.DoubleSupplier;

/**
 * Gauges and counters of the plant.
 */
public class GaugeRegistry {

    public record Sample(Instant at, Map<String, Double> values) { }

    private static class Holder {
        static final GaugeRegistry INSTANCE = new Builder().defaultUnit("1").build();
    }

    public static class Builder {
        private String defaultUnit = "";

        public Builder defaultUnit(String unit) { // accepted: doubtful: a builder is meant for one thread; if shared, a plain write with no lock
            this.defaultUnit = unit;
            return this;
        }

        public GaugeRegistry build() { // accepted: doubtful: a builder is meant for one thread; if shared, a plain read with no lock
            return new GaugeRegistry(this);
        }
    }

    private final Object gaugeLock = new Object();
    private final SortedMap<String, DoubleSupplier> gauges = new TreeMap<>();
    private final ConcurrentHashMap<String, LongAdder> counters = new ConcurrentHashMap<>();
    private final String defaultUnit;
    private volatile Sample lastSample;
    private Map<String, String> units;

    private GaugeRegistry(Builder builder) {
        this.defaultUnit = builder.defaultUnit;
    }

    public static GaugeRegistry instance() { // accepted
        return Holder.INSTANCE;
    }

    public boolean register(String name, DoubleSupplier gauge) { // accepted
        synchronized (gaugeLock) {
            return gauges.putIfAbsent(name, gauge) == null;
        }
    }

    public boolean unregister(String name) { // accepted
        synchronized (gaugeLock) {
            return gauges.remove(name) != null;
        }
    }

    public Set<String> gaugeNames() { // refused: fault: hands out the live key set of the TreeMap: A iterates over it without the lock while B registers; removals through it go without the lock too
        synchronized (gaugeLock) {
            return gauges.keySet();
        }
    }

    public Optional<Double> read(String name) { // refused: doubtful: the own state is looked at in one region only, so atomic as far as that goes; but the unknown gauge is called after it with no lock, and may be asked after B's unregister has returned
        DoubleSupplier gauge;
        synchronized (gaugeLock) {
            gauge = gauges.get(name);
        }
        return Optional.ofNullable(gauge).map(DoubleSupplier::getAsDouble);
    }

    /** Reads all of the gauges. */
    public Sample sample() { // accepted
        synchronized (gaugeLock) {
            Map<String, Double> values = new TreeMap<>();
            gauges.forEach((name, gauge) -> values.put(name, gauge.getAsDouble()));
            Sample s = new Sample(Instant.now(), Map.copyOf(values));
            lastSample = s;
            return s;
        }
    }

    public Optional<Sample> lastSample() { // accepted
        return Optional.ofNullable(lastSample);
    }

    public double lastValue(String name) { // refused: fault: reads the volatile lastSample three times: A finds the name in it, B unregisters the gauge and samples, A gets null from the new sample and throws a NullPointerException
        if (lastSample == null || !lastSample.values().containsKey(name)) {
            return Double.NaN;
        }
        return lastSample.values().get(name);
    }

    public void count(String counter) { // refused: fault: get then put: A and B both find no adder, both put one and increment: one count is lost
        LongAdder adder = counters.get(counter);
        if (adder == null) {
            adder = new LongAdder();
            counters.put(counter, adder);
        }
        adder.increment();
    }

    public long counted(String counter) { // refused: alarm: one get, then the sum of an adder that is only raised by ones
        LongAdder adder = counters.get(counter);
        return adder == null ? 0 : adder.sum();
    }

    public boolean resetCounter(String counter) { // accepted
        return counters.remove(counter) != null;
    }

    public String unitOf(String name) { // refused: fault: double-checked on a field that is not volatile: B sees units not null but a map half built
        if (units == null) {
            synchronized (this) {
                if (units == null) {
                    units = loadUnits();
                }
            }
        }
        return units.getOrDefault(name, defaultUnit);
    }

    private static Map<String, String> loadUnits() {
        Map<String, String> m = new TreeMap<>();
        m.put("temperature", "K");
        m.put("pressure", "Pa");
        m.put("flow", "l/s");
        return m;
    }
}
