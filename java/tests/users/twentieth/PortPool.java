// judged with: --public --infer
package com.example.twentieth;

import java.util.OptionalInt;
import java.util.concurrent.atomic.AtomicInteger;
import java.util.concurrent.atomic.AtomicIntegerArray;
import java.util.stream.IntStream;

/**
 * Hands out the ports of a range to tenants. Tenants are known by a positive number.
 */
public class PortPool {

    private static final int FREE = 0;

    private final int base;
    private final AtomicIntegerArray owners;
    private final AtomicInteger refusals = new AtomicInteger();

    public PortPool(int base, int count) {
        this.base = base;
        this.owners = new AtomicIntegerArray(count);
    }

    public int capacity() { // accepted
        return owners.length();
    }

    /** Gives the tenant any port that is free. */
    public OptionalInt acquire(int tenant) { // refused: fault: A passes the taken slot 0, B releases slot 0 and claims slot 1, A finds slot 1 taken: answers empty though a port was free all the time
        for (int i = 0; i < owners.length(); i++) {
            if (owners.compareAndSet(i, FREE, tenant)) {
                return OptionalInt.of(base + i);
            }
        }
        return OptionalInt.empty();
    }

    public boolean claim(int port, int tenant) { // accepted
        return owners.compareAndSet(slot(port), FREE, tenant);
    }

    public boolean release(int port, int tenant) { // accepted
        return owners.compareAndSet(slot(port), tenant, FREE);
    }

    public boolean handOver(int port, int from, int to) { // accepted
        return owners.compareAndSet(slot(port), from, to);
    }

    /** Evicts whoever has the port, and tells who it was. */
    public int seize(int port, int tenant) { // accepted
        return owners.getAndSet(slot(port), tenant);
    }

    public int ownerOf(int port) { // accepted
        return owners.get(slot(port));
    }

    public boolean isFree(int port) { // accepted
        return ownerOf(port) == FREE;
    }

    /** Gives the tenant n neighbouring ports and returns the first of them. */
    public OptionalInt acquireRange(int n, int tenant) { // refused: fault: check then set: A finds slots 0..2 free, B claims slot 1 and is told true, A overwrites it
        for (int start = 0; start + n <= owners.length(); start++) {
            int from = start;
            boolean free = IntStream.range(from, from + n).allMatch(i -> owners.get(i) == FREE);
            if (free) {
                IntStream.range(from, from + n).forEach(i -> owners.set(i, tenant));
                return OptionalInt.of(base + from);
            }
        }
        refusals.incrementAndGet();
        return OptionalInt.empty();
    }

    public int releaseAll(int tenant) { // refused: fault: slot by slot: B's ownerOf sees one port of the tenant free and the next still taken; a port claimed for the tenant behind A's back stays
        int n = 0;
        for (int i = 0; i < owners.length(); i++) {
            if (owners.compareAndSet(i, tenant, FREE)) {
                n++;
            }
        }
        return n;
    }

    public int used() { // refused: fault: slot by slot: A passes the free slot 0, B hands its use over (claims 0, releases 1), A finds 1 free: 0 used though one always was
        return (int) IntStream.range(0, owners.length())
                .filter(i -> owners.get(i) != FREE)
                .count();
    }

    public int refusals() { // accepted
        return refusals.get();
    }

    public int takeRefusals() { // accepted
        return refusals.getAndSet(0);
    }

    private int slot(int port) {
        int i = port - base;
        if (i < 0 || i >= owners.length()) {
            throw new IllegalArgumentException("no such port: " + port);
        }
        return i;
    }
}
