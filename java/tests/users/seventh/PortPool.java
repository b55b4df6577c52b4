// judged with: --public --infer
package com.example.seventh;

import java.util.ArrayList;
import java.util.BitSet;
import java.util.Collection;
import java.util.List;
import java.util.OptionalInt;
import java.util.concurrent.atomic.AtomicInteger;
import java.util.concurrent.locks.Condition;
import java.util.concurrent.locks.Lock;
import java.util.concurrent.locks.ReentrantLock;
import java.util.stream.IntStream;

/** Leases port numbers, counted from zero. */
public class PortPool {
    private final Lock lock = new ReentrantLock(true);
    private final Condition freed = lock.newCondition();
    private final BitSet used = new BitSet();
    private final AtomicInteger leased = new AtomicInteger();
    private volatile int capacity;

    public PortPool(int capacity) {
        this.capacity = capacity;
    }

    public int lease() throws InterruptedException { // refused: alarm: each turn asks anew behind its wait
        lock.lock();
        try {
            int port = used.nextClearBit(0);
            while (port >= capacity) {
                freed.await();
                port = used.nextClearBit(0);
            }
            mark(port);
            return port;
        } finally {
            lock.unlock();
        }
    }

    public OptionalInt tryLease() { // accepted
        lock.lock();
        try {
            int port = used.nextClearBit(0);
            if (port >= capacity) {
                return OptionalInt.empty();
            }
            mark(port);
            return OptionalInt.of(port);
        } finally {
            lock.unlock();
        }
    }

    public boolean leaseIfFree(int port) { // refused: fault: check-then-act: two threads find port 3 free and both mark it, both return true: the port is leased twice and leasedCount() is 2
        if (!isFree(port)) {
            return false;
        }
        lock.lock();
        try {
            mark(port);
        } finally {
            lock.unlock();
        }
        return true;
    }

    /** All n ports or none. */
    public List<Integer> leaseMany(int n) { // refused: fault: one region per port: leaseMany(2) with one port free takes it for a moment and gives it back; another thread's tryLease() in between is empty (leasedCount() is too big) though in every order of whole calls the port was free
        List<Integer> ports = new ArrayList<>(n);
        while (ports.size() < n) {
            OptionalInt port = tryLease();
            if (port.isEmpty()) {
                releaseAll(ports);
                return List.of();
            }
            ports.add(port.getAsInt());
        }
        return ports;
    }

    public OptionalInt leaseBlock(int n) { // accepted
        lock.lock();
        try {
            for (int start = used.nextClearBit(0); start + n <= capacity; start = used.nextClearBit(start + 1)) {
                int next = used.nextSetBit(start);
                if (next < 0 || next >= start + n) {
                    used.set(start, start + n);
                    leased.addAndGet(n);
                    return OptionalInt.of(start);
                }
            }
            return OptionalInt.empty();
        } finally {
            lock.unlock();
        }
    }

    public void release(int port) { // accepted
        lock.lock();
        try {
            if (!used.get(port)) {
                throw new IllegalStateException("not leased: " + port);
            }
            used.clear(port);
            leased.decrementAndGet();
            freed.signalAll();
        } finally {
            lock.unlock();
        }
    }

    public void releaseAll(Collection<Integer> ports) { // refused: fault: one region per port: releaseAll([0,1]), another thread's leasedCount() in between is one less, not two
        ports.forEach(this::release);
    }

    public boolean isFree(int port) { // accepted
        lock.lock();
        try {
            return port < capacity && !used.get(port);
        } finally {
            lock.unlock();
        }
    }

    public void grow(int more) { // accepted
        lock.lock();
        try {
            capacity += more;
            freed.signalAll();
        } finally {
            lock.unlock();
        }
    }

    public int capacity() { // accepted
        return capacity;
    }

    public int leasedCount() { // accepted
        return leased.get();
    }

    public double utilisation() { // refused: fault: two reads without the lock: 4 of 4 leased, it reads leased 4, another thread does release(0) then grow(4), it reads capacity 8: 0.5, while the values were 1, 3/4, 3/8
        return (double) leased.get() / capacity;
    }

    public IntStream usedPorts() { // accepted
        lock.lock();
        try {
            return ((BitSet) used.clone()).stream();
        } finally {
            lock.unlock();
        }
    }

    private void mark(int port) {
        used.set(port);
        leased.incrementAndGet();
    }
}
