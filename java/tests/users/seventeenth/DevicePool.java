// judged with: --public --infer
package com.example.seventeenth;

import java.util.Collections;
import java.util.List;
import java.util.Map;
import java.util.Optional;
import java.util.concurrent.ConcurrentHashMap;
import java.util.concurrent.ConcurrentMap;
import java.util.concurrent.CopyOnWriteArrayList;

/**
 * Test devices that are leased to the runs of the lab.
 */
public class DevicePool {

    private enum State { FREE, LEASED, QUARANTINED }

    public record Slot(String state, String owner) { }

    public interface ReleaseListener {
        void onRelease(String device, String owner);
    }

    private static final Slot FREE = new Slot(State.FREE.name(), null);

    private final ConcurrentMap<String, Slot> slots = new ConcurrentHashMap<>();
    private final List<ReleaseListener> listeners = new CopyOnWriteArrayList<>();

    public boolean register(String device) { // accepted
        return slots.putIfAbsent(device, FREE) == null;
    }

    public boolean retire(String device) { // accepted
        return slots.remove(device, FREE);
    }

    /** Leases some free device. */
    public Optional<String> leaseAny(String owner) { // refused: fault: a success is one replace, but the failure is not: A finds d1 leased, B releases d1 and leases d2, A finds d2 leased and returns empty although a device was free all the time
        Slot lease = leasedTo(owner);
        for (String device : slots.keySet()) {
            if (slots.replace(device, FREE, lease)) {
                return Optional.of(device);
            }
        }
        return Optional.empty();
    }

    public boolean lease(String device, String owner) { // refused: fault: a and B both see the device free, both put their lease and both return true
        Slot slot = slots.get(device);
        if (slot == null || !slot.equals(FREE)) {
            return false;
        }
        slots.put(device, leasedTo(owner));
        return true;
    }

    public boolean handOver(String device, String from, String to) { // accepted
        return slots.replace(device, leasedTo(from), leasedTo(to));
    }

    public boolean release(String device, String owner) { // refused: doubtful: own slot changes in one replace, alien listeners are called after it without a lock; strictly a listener that B adds after B saw the device free is still told, most would call that fine
        if (!slots.replace(device, leasedTo(owner), FREE)) {
            return false;
        }
        listeners.forEach(l -> l.onRelease(device, owner));
        return true;
    }

    /** Takes a device out of service, whoever has it. */
    public Optional<String> quarantine(String device) { // refused: alarm: one computeIfPresent, the lambda only fills a local array
        String[] evicted = new String[1];
        slots.computeIfPresent(device, (d, slot) -> {
            evicted[0] = slot.owner();
            return new Slot(State.QUARANTINED.name(), null);
        });
        return Optional.ofNullable(evicted[0]);
    }

    public boolean repair(String device) { // accepted
        return slots.replace(device, new Slot(State.QUARANTINED.name(), null), FREE);
    }

    public Optional<String> ownerOf(String device) { // refused: fault: a sees the key, B retires the device, A's get returns null: NullPointerException
        if (!slots.containsKey(device)) {
            return Optional.empty();
        }
        return Optional.ofNullable(slots.get(device).owner());
    }

    public boolean isFree(String device) { // accepted
        return FREE.equals(slots.get(device));
    }

    public long countFree() { // refused: fault: weakly consistent traversal: A passes d1 while leased, B releases d1 and leases d2, A passes d2 and counts 0 although one was always free
        return slots.values().stream().filter(FREE::equals).count();
    }

    public Map<String, Slot> view() { // accepted
        return Collections.unmodifiableMap(slots);
    }

    public void addListener(ReleaseListener listener) { // accepted
        listeners.add(listener);
    }

    private static Slot leasedTo(String owner) {
        return new Slot(State.LEASED.name(), owner);
    }
}
