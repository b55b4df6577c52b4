// judged with: --public --infer
package com.example.twentythird;

import java.util.ArrayList;
import java.util.BitSet;
import java.util.List;
import java.util.Map;
import java.util.Optional;
import java.util.OptionalInt;
import java.util.TreeMap;
import java.util.concurrent.atomic.AtomicReference;
import java.util.stream.Collectors;

/** Hands out local ports of a fixed range. The whole state is swapped as one object. */
public class PortPool {
    private record State(BitSet used, Map<Integer, String> owners, int generation) {
        State with(int slot, String owner) {
            BitSet u = (BitSet) used.clone();
            Map<Integer, String> o = new TreeMap<>(owners);
            u.set(slot);
            o.put(slot, owner);
            return new State(u, o, generation + 1);
        }

        State without(int slot) {
            BitSet u = (BitSet) used.clone();
            Map<Integer, String> o = new TreeMap<>(owners);
            u.clear(slot);
            o.remove(slot);
            return new State(u, o, generation + 1);
        }
    }

    private final AtomicReference<State> state =
            new AtomicReference<>(new State(new BitSet(), Map.of(), 0));
    private final int base;
    private final int count;

    public PortPool(int base, int count) {
        this.base = base;
        this.count = count;
    }

    public OptionalInt lease(String owner) { // accepted
        for (;;) {
            State current = state.get();
            int slot = current.used().nextClearBit(0);
            if (slot >= count) {
                return OptionalInt.empty();
            }
            if (state.compareAndSet(current, current.with(slot, owner))) {
                return OptionalInt.of(base + slot);
            }
        }
    }

    /** Leases {@code n} ports, or none at all. */
    public List<Integer> leaseMany(String owner, int n) { // refused: fault: a CAS per port: two free ports, A and B both want two, each gets one, both give back and return nothing; also B sees a part of A's ports
        List<Integer> ports = new ArrayList<>(n);
        for (int i = 0; i < n; i++) {
            OptionalInt port = lease(owner);
            if (port.isEmpty()) {
                ports.forEach(this::giveBack);
                return List.of();
            }
            ports.add(port.getAsInt());
        }
        return ports;
    }

    public boolean giveBack(int port) { // accepted
        int slot = port - base;
        State before = state.getAndUpdate(s -> s.used().get(slot) ? s.without(slot) : s);
        return before.used().get(slot);
    }

    public void evict(String owner) { // refused: fault: get and set without CAS: A gets s0, B leases a port (s1), A sets its s0': B's port is free again
        State current = state.get();
        for (Map.Entry<Integer, String> e : current.owners().entrySet()) {
            if (e.getValue().equals(owner)) {
                current = current.without(e.getKey());
            }
        }
        state.set(current);
    }

    public boolean handOver(int port, String from, String to) { // refused: fault: check in one look, update in another: A sees that x owns the port, B gives it back and y leases it, A hands y's port to z and returns true
        int slot = port - base;
        State current = state.get();
        if (!from.equals(current.owners().get(slot))) {
            return false;
        }
        state.updateAndGet(s -> s.with(slot, to));
        return true;
    }

    public Optional<String> ownerOf(int port) { // accepted
        return Optional.ofNullable(state.get().owners().get(port - base));
    }

    public Map<String, Long> usage() { // accepted
        return state.get().owners().values().stream()
                .collect(Collectors.groupingBy(o -> o, TreeMap::new, Collectors.counting()));
    }

    public BitSet used() { // refused: fault: hands out the BitSet of the current state: the caller can set or clear bits in it, while other threads read it
        return state.get().used();
    }

    public int free() { // accepted
        return count - state.get().used().cardinality();
    }

    public int generation() { // accepted
        return state.get().generation();
    }

    @Override
    public String toString() { // refused: fault: two looks at the state: A reads generation 4, B leases (generation 5, one less free), A prints generation 4 with the free ports of 5
        return "PortPool#" + state.get().generation() + "[" + free() + " of " + count + " free]";
    }
}
