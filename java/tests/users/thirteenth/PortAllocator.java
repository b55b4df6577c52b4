// judged with: --public --infer
package com.example.thirteenth;

import java.util.BitSet;
import java.util.List;
import java.util.Map;
import java.util.Optional;
import java.util.SortedMap;
import java.util.TreeMap;
import java.util.concurrent.ConcurrentHashMap;
import java.util.stream.IntStream;

/** Hands out the UDP ports of one host to game rooms. */
public class PortAllocator {

    public enum Strategy { LOWEST, ROUND_ROBIN }

    /** A port that is ours until the lease is closed. */
    public final class Lease implements AutoCloseable {
        private final int port;
        private volatile boolean closed;

        private Lease(int port) { this.port = port; }

        public int port() { return port; } // accepted

        @Override
        public void close() { // refused: fault: check-then-act on a volatile: T1 and T2 close the same lease and both see closed=false, T1 releases the port, T3 leases it, T2 releases it again under T3
            if (!closed) {
                closed = true;
                release(port);
            }
        }
    }

    private final int first;
    private final int count;
    private final Strategy strategy;
    private final BitSet used = new BitSet();
    private final Map<Integer, String> owners = new ConcurrentHashMap<>();
    private int cursor;

    public PortAllocator(int first, int count, Strategy strategy) {
        this.first = first;
        this.count = count;
        this.strategy = strategy;
    }

    public Optional<Lease> lease(String owner) { // accepted
        synchronized (used) {
            int index = used.nextClearBit(strategy == Strategy.LOWEST ? 0 : cursor);
            if (index >= count) {
                index = used.nextClearBit(0);
            }
            if (index >= count) {
                return Optional.empty();
            }
            cursor = (index + 1) % count;
            return Optional.of(take(index, owner));
        }
    }

    /** Leases that many neighbouring ports, or none at all. */
    public List<Lease> leaseBlock(String owner, int size) { // refused: fault: holds the lock, but puts the owners one by one into a concurrent map that ownerOf() reads without it: T2's ownerOf(p) gives the new owner and then ownerOf(p+1) is still empty, half a block
        synchronized (used) {
            int from = used.nextClearBit(0);
            while (from + size <= count) {
                int end = used.nextSetBit(from);
                if (end < 0 || end - from >= size) {
                    return IntStream.range(from, from + size).mapToObj(i -> take(i, owner)).toList();
                }
                from = used.nextClearBit(end);
            }
            return List.of();
        }
    }

    public Optional<Lease> lease(String owner, int port) { // refused: fault: check-then-act: the check is in a region of its own; T1 and T2 both find the port free and both take it
        if (!isFree(port)) {
            return Optional.empty();
        }
        synchronized (used) {
            return Optional.of(take(port - first, owner));
        }
    }

    public boolean isFree(int port) { // accepted
        synchronized (used) {
            return port >= first && port < first + count && !used.get(port - first);
        }
    }

    public int freeCount() { // refused: fault: BitSet.cardinality() without the lock walks over the words (which may be exchanged for a larger array): T1 has counted word 0, T2 leases a port in word 0 and then frees one in word 1, T1 counts a number that never was; also a data race
        return count - used.cardinality();
    }

    public Optional<String> ownerOf(int port) { // accepted
        return Optional.ofNullable(owners.get(port));
    }

    public SortedMap<Integer, String> leases() { // refused: alarm: the expert sees no interruption
        synchronized (used) {
            return new TreeMap<>(owners);
        }
    }

    private Lease take(int index, String owner) {
        used.set(index);
        owners.put(first + index, owner);
        return new Lease(first + index);
    }

    private void release(int port) {
        synchronized (used) {
            owners.remove(port);
            used.clear(port - first);
        }
    }
}
