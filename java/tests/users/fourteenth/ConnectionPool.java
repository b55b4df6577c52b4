// judged with: --public --infer
package com.example.fourteenth;

import java.util.ArrayDeque;
import java.util.ArrayList;
import java.util.Deque;
import java.util.HashSet;
import java.util.List;
import java.util.Optional;
import java.util.Set;

/**
 * Bounded pool of connections, created on demand.
 */
public class ConnectionPool<C> {

    public interface Factory<C> {
        C connect();

        void disconnect(C connection);
    }

    public record Usage(int idle, int busy, int limit) { }

    private final Factory<C> factory;
    private final int limit;
    private final Deque<C> idle = new ArrayDeque<>();
    private final Set<C> busy = new HashSet<>();
    private boolean closed;

    public ConnectionPool(Factory<C> factory, int limit) {
        this.factory = factory;
        this.limit = limit;
    }

    public synchronized C acquire() throws InterruptedException { // accepted
        while (!closed && idle.isEmpty() && busy.size() >= limit) {
            wait();
        }
        if (closed) {
            throw new IllegalStateException("pool is closed");
        }
        C c = idle.isEmpty() ? factory.connect() : idle.pop();
        busy.add(c);
        return c;
    }

    public synchronized Optional<C> tryAcquire() { // accepted
        if (closed || (idle.isEmpty() && busy.size() >= limit)) {
            return Optional.empty();
        }
        C c = idle.isEmpty() ? factory.connect() : idle.pop();
        busy.add(c);
        return Optional.of(c);
    }

    public void release(C c) { // refused: alarm: all of the own state changes in one critical section; alien disconnect comes after it and touches no own state
        boolean surplus;
        synchronized (this) {
            if (!busy.remove(c)) {
                throw new IllegalArgumentException("not borrowed: " + c);
            }
            surplus = closed;
            if (!surplus) {
                idle.push(c);
            }
            notifyAll();
        }
        if (surplus) {
            factory.disconnect(c);
        }
    }

    /** Closes idle connections until at most {@code keep} remain. */
    public int shrinkTo(int keep) { // refused: fault: idleCount() and removeLast() are separate regions (and every round is one): tryAcquire() pops the last idle one in between and removeLast throws NoSuchElementException
        int disconnected = 0;
        while (idleCount() > keep) {
            C victim;
            synchronized (this) {
                victim = idle.removeLast();
            }
            factory.disconnect(victim);
            disconnected++;
        }
        return disconnected;
    }

    public synchronized int idleCount() { // accepted
        return idle.size();
    }

    public List<C> borrowed() { // refused: fault: wrong lock (busy's monitor, everyone else uses this): copying races with acquire's busy.add, ConcurrentModificationException or half a copy
        synchronized (busy) {
            return new ArrayList<>(busy);
        }
    }

    public synchronized Usage usage() { // accepted
        return new Usage(idle.size(), busy.size(), limit);
    }

    public boolean isClosed() { // refused: fault: one look at a field without its lock
        return closed;
    }

    public void close() { // refused: alarm: one critical section for the own state; alien disconnects afterwards, on a private list
        List<C> victims;
        synchronized (this) {
            if (closed) {
                return;
            }
            closed = true;
            victims = new ArrayList<>(idle);
            idle.clear();
            notifyAll();
        }
        victims.forEach(factory::disconnect);
    }
}
