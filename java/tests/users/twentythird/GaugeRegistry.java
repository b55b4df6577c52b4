// judged with: --public --infer
package com.example.twentythird;

import java.util.ArrayList;
import java.util.Collections;
import java.util.HashMap;
import java.util.LinkedHashMap;
import java.util.List;
import java.util.Map;
import java.util.OptionalDouble;
import java.util.Set;
import java.util.TreeSet;
import java.util.concurrent.atomic.LongAdder;

/** Named gauges, read when somebody asks for them. There is a global registry and any number of named ones. */
public class GaugeRegistry {
    @FunctionalInterface
    public interface Gauge {
        double read();
    }

    public record Sample(String name, double value) {}

    private static final class Holder {
        private static final GaugeRegistry INSTANCE = new GaugeRegistry("global");
    }

    private static final class Renderer {
        private String prefix;
        private int width;

        Renderer(String name) {
            prefix = name + '.';
            width = 24;
        }

        String render(Sample s) {
            return String.format("%-" + width + "s %10.3f", prefix + s.name(), s.value());
        }
    }

    private static final Map<String, GaugeRegistry> NAMED = new HashMap<>();

    private final String name;
    private final Map<String, Gauge> gauges = Collections.synchronizedMap(new LinkedHashMap<>());
    private final LongAdder reads = new LongAdder();
    private Renderer renderer;

    private GaugeRegistry(String name) {
        this.name = name;
    }

    public static GaugeRegistry global() { // accepted
        return Holder.INSTANCE;
    }

    public static GaugeRegistry named(String name) { // refused: fault: double-checked locking over a plain HashMap: A walks the table without the lock while B's computeIfAbsent inserts and resizes it (undefined, not only a miss)
        GaugeRegistry r = NAMED.get(name);
        if (r == null) {
            synchronized (NAMED) {
                r = NAMED.computeIfAbsent(name, GaugeRegistry::new);
            }
        }
        return r;
    }

    public static Set<String> names() { // accepted
        synchronized (NAMED) {
            return Set.copyOf(NAMED.keySet());
        }
    }

    public boolean register(String gauge, Gauge source) { // accepted
        return gauges.putIfAbsent(gauge, source) == null;
    }

    public boolean unregister(String gauge) { // refused: fault: check-then-act on a synchronizedMap: A and B both see the key, both return true (or A removes the gauge C has registered anew)
        if (gauges.containsKey(gauge)) {
            gauges.remove(gauge);
            return true;
        }
        return false;
    }

    public Set<String> gaugeNames() { // refused: alarm: copy made while the map's own mutex is held
        synchronized (gauges) {
            return new TreeSet<>(gauges.keySet());
        }
    }

    public OptionalDouble read(String gauge) { // refused: alarm: one look at the map; the alien gauge is called after it, without a lock
        Gauge source = gauges.get(gauge);
        return source == null ? OptionalDouble.empty() : OptionalDouble.of(source.read());
    }

    public List<Sample> readAll() { // refused: fault: the walk itself holds the map's mutex (and calls the alien gauges under it), but the reads counter grows one by one: B's reads() gives 2 of 3 in the middle
        List<Sample> samples = new ArrayList<>();
        gauges.forEach((n, g) -> {
            reads.increment();
            samples.add(new Sample(n, g.read()));
        });
        return samples;
    }

    public double sum() { // refused: fault: stream over a view of a synchronizedMap without its mutex: B registers meanwhile: ConcurrentModificationException
        return gauges.values().stream().mapToDouble(Gauge::read).sum();
    }

    public String report() { // refused: fault: double-checked locking with a field that is not volatile, of a class without final fields: B sees the Renderer with width 0 and prefix null; also readAll() inside
        if (renderer == null) {
            synchronized (this) {
                if (renderer == null) renderer = new Renderer(name);
            }
        }
        StringBuilder out = new StringBuilder();
        for (Sample s : readAll()) out.append(renderer.render(s)).append('\n');
        return out.toString();
    }

    public long reads() { // accepted
        return reads.sum();
    }
}
