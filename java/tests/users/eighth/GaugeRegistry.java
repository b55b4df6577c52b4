// judged with: --public --infer
package com.example.eighth;

import java.util.Collection;
import java.util.HashMap;
import java.util.Map;
import java.util.OptionalLong;
import java.util.Set;
import java.util.TreeMap;
import java.util.concurrent.atomic.AtomicLong;
import java.util.concurrent.atomic.LongAdder;
import java.util.function.LongUnaryOperator;

/** Gauges are never removed, only added by copying the map. */
public class GaugeRegistry {

    private static final class Holder {
        static final GaugeRegistry GLOBAL = new GaugeRegistry();
    }

    private final Object registration = new Object();
    private volatile Map<String, AtomicLong> gauges = Map.of();
    private final LongAdder ticks = new LongAdder();
    private volatile String banner;
    private volatile String unit = "ms";
    private volatile int factor = 1;

    public static GaugeRegistry global() { // accepted
        return Holder.GLOBAL;
    }

    public boolean register(String name) { // refused: alarm: the region asks again
        if (gauges.containsKey(name)) {
            return false;
        }
        synchronized (registration) {
            if (gauges.containsKey(name)) {
                return false;
            }
            Map<String, AtomicLong> copy = new HashMap<>(gauges);
            copy.put(name, new AtomicLong());
            gauges = Map.copyOf(copy);
            return true;
        }
    }

    public void registerAll(Collection<String> names) { // refused: fault: one registration per name: registerAll([a,b]), another thread's names() in between is [a]
        names.forEach(this::register);
    }

    public Set<String> names() { // accepted
        return gauges.keySet();
    }

    public OptionalLong add(String name, long delta) { // refused: alarm: no gauge is taken out of the map again
        AtomicLong gauge = gauges.get(name);
        return gauge == null ? OptionalLong.empty() : OptionalLong.of(gauge.addAndGet(delta));
    }

    public long addRegistered(String name, long delta) { // refused: fault: registration and addition are separate: in between another thread sees the name in names() and value(name) is still 0
        register(name);
        return gauges.get(name).addAndGet(delta);
    }

    public boolean update(String name, LongUnaryOperator change) { // refused: alarm: no gauge is taken out of the map again
        AtomicLong gauge = gauges.get(name);
        if (gauge == null) {
            return false;
        }
        gauge.updateAndGet(change);
        return true;
    }

    public void raise(String name, long value) { // refused: fault: get and set: 0 < 5 is seen, another thread's add(name,9) gives 9, 5 is set: value(name) is 5, instead of 9 or 14
        AtomicLong gauge = gauges.get(name);
        if (gauge != null && gauge.get() < value) {
            gauge.set(value);
        }
    }

    public void raiseTo(String name, long value) { // refused: alarm: no gauge is taken out of the map again
        update(name, old -> Math.max(old, value));
    }

    public void shift(String from, String to, long amount) { // refused: fault: two additions: in between another thread reads value(from) reduced and value(to) still old
        if (gauges.containsKey(to) && add(from, -amount).isPresent()) {
            add(to, amount);
        }
    }

    public long value(String name) { // refused: alarm: no gauge is taken out of the map again
        AtomicLong gauge = gauges.get(name);
        return gauge == null ? 0 : gauge.get();
    }

    public long take(String name) { // refused: fault: get and set: another thread's add(name,3) between them is lost: neither returned nor kept
        AtomicLong gauge = gauges.get(name);
        if (gauge == null) {
            return 0;
        }
        long taken = gauge.get();
        gauge.set(0);
        return taken;
    }

    public long takeAll(String name) { // refused: alarm: no gauge is taken out of the map again
        AtomicLong gauge = gauges.get(name);
        return gauge == null ? 0 : gauge.getAndSet(0);
    }

    public Map<String, Long> snapshot() { // refused: fault: one gauge at a time: a=0 is read, another thread does add(a,1) and then add(b,1), b=1 is read: {a=0,b=1}, which never was
        Map<String, Long> copy = new TreeMap<>();
        gauges.forEach((name, gauge) -> copy.put(name, gauge.get()));
        return copy;
    }

    public long total() { // refused: fault: one gauge at a time: a=0 is read, another thread does add(a,1) and then add(b,2), b=2 is read: 2, while the totals were 0, 1, 3
        return gauges.values().stream().mapToLong(AtomicLong::get).sum();
    }

    public void tick() { // accepted
        ticks.increment();
    }

    public long ticks() { // accepted
        return ticks.sum();
    }

    public String banner() { // accepted
        String local = banner;
        if (local == null) {
            synchronized (registration) {
                local = banner;
                if (local == null) {
                    banner = local = "gauges@" + System.nanoTime();
                }
            }
        }
        return local;
    }

    public void scale(String newUnit, int newFactor) { // refused: fault: two volatile writes: in between another thread's describe() shows the new unit with the old factor
        unit = newUnit;
        factor = newFactor;
    }

    public String unit() { // accepted
        return unit;
    }

    public String describe(String name) { // refused: fault: three reads: the factor 1 of "ms" is read, another thread's scale("us",1000) runs, the unit "us" is read: 5us instead of 5ms or 5000us
        return name + "=" + value(name) * factor + unit;
    }
}
