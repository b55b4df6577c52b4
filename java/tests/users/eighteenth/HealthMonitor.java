// judged with: --public --infer
package com.example.eighteenth;

import java.util.HashMap;
import java.util.Map;
import java.util.Optional;
import java.util.concurrent.ConcurrentHashMap;
import java.util.concurrent.ConcurrentMap;
import java.util.concurrent.atomic.LongAdder;
import java.util.stream.Collectors;

/**
 * Heartbeats and events of the services, one monitor for each service.
 */
public class HealthMonitor {

    public enum Level {
        OK, WARN, DOWN;

        private Level worse() {
            return values()[Math.min(ordinal() + 1, values().length - 1)];
        }
    }

    public record Report(String service, Level level, long beats, long gapMillis) { }

    private static final class Beats {
        private long count;
        private long last;
        private long longestGap;

        synchronized void beat(long now) {
            if (count++ > 0) {
                longestGap = Math.max(longestGap, now - last);
            }
            last = now;
        }

        synchronized Report report(String service, Level level) {
            return new Report(service, level, count, longestGap);
        }

        synchronized long longestGap() {
            return longestGap;
        }
    }

    private static final Map<String, HealthMonitor> REGISTRY = new HashMap<>();

    private final String service;
    private final ConcurrentMap<String, LongAdder> events = new ConcurrentHashMap<>();
    private volatile Level level = Level.OK;
    private volatile Beats beats;

    private HealthMonitor(String service) {
        this.service = service;
    }

    public static HealthMonitor of(String service) { // refused: alarm: one synchronized block on the class (only the culprit unregister() can disturb it)
        synchronized (HealthMonitor.class) {
            return REGISTRY.computeIfAbsent(service, HealthMonitor::new);
        }
    }

    public static synchronized Optional<HealthMonitor> lookup(String service) { // refused: alarm: static synchronized, the same monitor as of (only the culprit unregister() can disturb it)
        return Optional.ofNullable(REGISTRY.get(service));
    }

    /** Forgets this monitor; the next user of the service gets a new one. */
    public synchronized void unregister() { // refused: fault: locks the instance, the registry is static and guarded by the class: B's of() inserts and resizes the HashMap while A removes
        REGISTRY.remove(service, this);
    }

    public void beat(long now) { // refused: alarm: the lazy Beats is made by correct double-checked locking (volatile) and an empty one looks like none; then one synchronized call
        beats().beat(now);
    }

    public Report report() { // refused: fault: the level is read before the monitor of the beats is taken: A reads OK, B escalates and then beats, A reports OK together with the beat that came after the escalation
        return beats().report(service, level);
    }

    public long longestGap() { // refused: alarm: one volatile read into a local, then one synchronized read; no Beats means 0
        Beats seen = beats;
        return seen == null ? 0 : seen.longestGap();
    }

    public synchronized void escalate() { // accepted
        level = level.worse();
    }

    public synchronized void recovered() { // accepted
        level = Level.OK;
    }

    public boolean isDown() { // accepted
        return level == Level.DOWN;
    }

    public void event(String kind) { // refused: fault: two steps: A inserts a new adder, B's events() shows the kind with 0, A increments; a kind with 0 exists in no order of the calls
        events.computeIfAbsent(kind, k -> new LongAdder()).increment();
    }

    public long count(String kind) { // refused: doubtful: longAdder.sum is documented as no atomic snapshot; since only ones are added and adders are never removed the sum is one that was reached in between, so experts would argue
        LongAdder adder = events.get(kind);
        return adder == null ? 0 : adder.sum();
    }

    public Map<String, Long> events() { // refused: fault: weakly consistent traversal: A passes kind a at 0 or without it, B reports a and then b, A passes b and shows b without a
        return events.entrySet().stream()
                .collect(Collectors.toMap(Map.Entry::getKey, e -> e.getValue().sum()));
    }

    private Beats beats() {
        Beats seen = beats;
        if (seen == null) {
            synchronized (this) {
                seen = beats;
                if (seen == null) {
                    seen = new Beats();
                    beats = seen;
                }
            }
        }
        return seen;
    }
}
