// judged with: --public --infer
package com.example.eighteenth;

import java.util.BitSet;
import java.util.Collection;
import java.util.OptionalInt;
import java.util.stream.IntStream;

/**
 * Hands out the local ports of a range.
 */
public class PortPool {

    /** A port that goes back to the pool on close. */
    public final class Lease implements AutoCloseable {
        private final int port;
        private boolean closed;

        private Lease(int port) {
            this.port = port;
        }

        public int port() { // accepted
            return port;
        }

        @Override
        public void close() { // refused: fault: a and B close the same lease and both see closed=false, A frees the port, C allocates it, B frees C's port (a lease is mostly used by one thread, but nothing says so)
            if (!closed) {
                closed = true;
                free(port);
            }
        }
    }

    private final int base;
    private final int size;
    private final BitSet used;

    public PortPool(int from, int to) {
        this.base = from;
        this.size = to - from;
        this.used = new BitSet(size);
    }

    public synchronized int allocate() throws InterruptedException { // refused: alarm: synchronized; the failed tries before a wait change nothing
        OptionalInt port = tryAllocate();
        while (port.isEmpty()) {
            wait();
            port = tryAllocate();
        }
        return port.getAsInt();
    }

    public synchronized OptionalInt tryAllocate() { // accepted
        int bit = used.nextClearBit(0);
        if (bit >= size) {
            return OptionalInt.empty();
        }
        used.set(bit);
        return OptionalInt.of(base + bit);
    }

    public Lease lease() throws InterruptedException { // refused: alarm: one allocation, the rest is a new object that nobody else has
        return new Lease(allocate());
    }

    /** Allocates {@code n} ports. */
    public int[] allocate(int n) throws InterruptedException { // refused: fault: port by port: A has 2 of 4 ports, B has 2 of 4, none gets the rest; others see a part of the allocation; an interrupt leaves the first ports allocated
        int[] ports = new int[n];
        for (int i = 0; i < n; i++) {
            ports[i] = allocate();
        }
        return ports;
    }

    /** Allocates {@code n} ports in a row and returns the first. */
    public synchronized OptionalInt allocateRun(int n) { // accepted
        int start = used.nextClearBit(0);
        while (start + n <= size) {
            int end = used.nextSetBit(start);
            if (end < 0 || end - start >= n) {
                used.set(start, start + n);
                return OptionalInt.of(base + start);
            }
            start = used.nextClearBit(end);
        }
        return OptionalInt.empty();
    }

    public boolean free(int port) { // refused: fault: a and B free the same port and both see it used, A frees it, C allocates it, B frees C's port and returns true as well
        if (!isUsed(port)) {
            return false;
        }
        synchronized (this) {
            used.clear(port - base);
            notifyAll();
        }
        return true;
    }

    public void freeAll(Collection<Integer> ports) { // accepted
        synchronized (this) {
            ports.forEach(this::free);
        }
    }

    public synchronized boolean isUsed(int port) { // accepted
        return used.get(port - base);
    }

    public int freeCount() { // refused: fault: cardinality walks over the words without the lock: A has counted 64 in word 0, B frees one there and then allocates a run of 5 in word 1, A counts 69, which never was
        return size - used.cardinality();
    }

    public IntStream usedPorts() { // accepted
        BitSet copy;
        synchronized (this) {
            copy = (BitSet) used.clone();
        }
        return copy.stream().map(bit -> base + bit);
    }
}
