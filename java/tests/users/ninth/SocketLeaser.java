// judged with: --public --infer
package com.example.ninth;

import java.util.ArrayDeque;
import java.util.Deque;
import java.util.HashSet;
import java.util.Optional;
import java.util.Set;
import java.util.concurrent.Semaphore;
import java.util.concurrent.locks.ReentrantLock;
import java.util.function.Function;

abstract class LeaseBase<R> {
    public record Stats(int idle, int out) { }

    protected final ReentrantLock lock = new ReentrantLock();
    protected final Deque<R> idle = new ArrayDeque<>();
    protected final Set<R> out = new HashSet<>();
    protected final int max;
    private volatile boolean shut;

    protected LeaseBase(int max) { this.max = max; }

    protected abstract R create();

    public Optional<R> borrow() { // accepted
        lock.lock();
        try {
            if (shut) return Optional.empty();
            R r = idle.pollFirst();
            if (r == null && out.size() < max) r = create();
            if (r != null) out.add(r);
            return Optional.ofNullable(r);
        } finally {
            lock.unlock();
        }
    }

    public boolean giveBack(R r) { // accepted
        lock.lock();
        try {
            if (!out.remove(r)) return false;
            if (!shut) idle.addFirst(r);
            return true;
        } finally {
            lock.unlock();
        }
    }

    public Stats stats() { // accepted
        lock.lock();
        try {
            return new Stats(idle.size(), out.size());
        } finally { lock.unlock(); }
    }

    public void shutdown() { // refused: one idle: after shut=true and before clear, another thread sees isShut() true and then stats() with idle 1; a whole shutdown leaves idle 0
        shut = true;
        lock.lock();
        try {
            idle.clear();
        } finally {
            lock.unlock();
        }
    }

    public boolean isShut() { return shut; } // accepted
}

/** Leases of connections to one host, with a gate for maintenance. */
public final class SocketLeaser extends LeaseBase<SocketLeaser.Conn> {
    public record Conn(int id) { }

    private final Semaphore gate = new Semaphore(1);
    private int lastId;

    public SocketLeaser(int max) { super(max); }

    @Override
    protected Conn create() { return new Conn(++lastId); }

    public void warmUp(int n) throws InterruptedException { // refused: fault: warmUp(2) on an empty leaser: stats() in another thread sees idle 1 between the two additions (and a borrow between spare and add makes idle+out exceed max)
        gate.acquire();
        try {
            for (int i = 0; i < n && spare() > 0; i++) {
                lock.lock();
                try { idle.addLast(create()); } finally { lock.unlock(); }
            }
        } finally {
            gate.release();
        }
    }

    public int spare() { // accepted
        Stats s = stats();
        return max - s.idle() - s.out();
    }

    public boolean tryTrim(int keep) { // accepted: while stats() of another thread holds the lock, tryLock fails and it returns false although idle > keep all the time; alone it returns true (if a failing tryLock counts as allowed, nothing else is wrong with it)
        if (!lock.tryLock()) return false;
        try {
            boolean any = idle.size() > keep;
            while (idle.size() > keep) idle.removeLast();
            return any;
        } finally {
            lock.unlock();
        }
    }

    public <T> Optional<T> call(Function<Conn, T> work) { // refused: fault: stats() of another thread during the work sees out 1 though nobody borrowed; with max 1 borrow() returns empty meanwhile
        Optional<Conn> conn = borrow();
        try { return conn.map(work); } finally { conn.ifPresent(this::giveBack); }
    }

    public boolean holdGate() { return gate.tryAcquire(); } // accepted

    public void freeGate() { gate.release(); } // accepted

    public boolean owns(Conn c) { return out.contains(c); } // refused: fault: reads the HashSet out without lock while borrow() resizes it: returns false for a connection that has been out all the time (racy field: out)
}
