// judged with: --public --infer
package com.example.eighth;

import java.util.ArrayDeque;
import java.util.ArrayList;
import java.util.Deque;
import java.util.List;
import java.util.NoSuchElementException;
import java.util.Optional;
import java.util.function.Consumer;
import java.util.function.Supplier;

public class SessionPool<C> {

    /** A connection on loan; close gives it back. */
    public final class Session implements AutoCloseable {
        private final C connection;
        private boolean open;

        private Session(C connection) {
            this.connection = connection;
        }

        public C connection() { // accepted: one look at a field without its lock, which is told as a data race
            if (!open) {
                throw new IllegalStateException("session is closed");
            }
            return connection;
        }

        @Override
        public void close() { // refused: alarm: one region
            synchronized (monitor) {
                if (open) {
                    open = false;
                    free.push(this);
                    monitor.notifyAll();
                }
            }
        }
    }

    private final Object monitor = new Object();
    private final Supplier<? extends C> factory;
    private final Deque<Session> free = new ArrayDeque<>();
    private final ThreadLocal<Session> current = new ThreadLocal<>();
    private int live;
    private int max;
    private boolean shut;

    public SessionPool(int max, Supplier<? extends C> factory) {
        this.max = max;
        this.factory = factory;
    }

    public Session acquire() throws InterruptedException { // refused: alarm: one region, in which the factory is called
        synchronized (monitor) {
            while (!shut && !canLend()) {
                monitor.wait();
            }
            return lend();
        }
    }

    public Optional<Session> tryAcquire() { // refused: alarm: one region, in which the factory is called
        synchronized (monitor) {
            return canLend() ? Optional.of(lend()) : Optional.empty();
        }
    }

    /** The calling thread's own session. */
    public Session current() { // refused: alarm: one region, in which the factory is called
        Session mine = current.get();
        if (mine == null) {
            mine = tryAcquire().orElseThrow(() -> new NoSuchElementException("no session left"));
            current.set(mine);
        }
        return mine;
    }

    public void withSession(Consumer<? super C> work) throws InterruptedException { // refused: fault: acquire, work and close are separate: while the work runs another thread's available() is one less (tryAcquire() on a pool of one is empty), which a whole withSession at one point never shows
        try (Session session = acquire()) {
            work.accept(session.connection());
        }
    }

    public int available() { // accepted
        synchronized (monitor) {
            return free.size() + Math.max(0, max - live);
        }
    }

    public int live() { // accepted
        synchronized (monitor) {
            return live;
        }
    }

    public String report() { // refused: fault: two regions: with max 2, live() gives 0, another thread's tryAcquire() makes a session, available() gives 1: "0 live, 1 available", which never was
        return "%d live, %d available".formatted(live(), available());
    }

    public void setMax(int value) { // accepted
        synchronized (monitor) {
            max = value;
            monitor.notifyAll();
        }
    }

    public synchronized void increaseMax(int by) { // refused: fault: the lock of another object: it holds this, setMax holds monitor: max 2 is read, another thread's setMax(10) runs, 3 is written: available() is 3 instead of 10 or 11
        max += by;
    }

    public int dropIdle() { // refused: fault: copy and removal are separate regions: [s] is copied, another thread's tryAcquire() takes s, remove finds nothing but live-- runs: live() is 0 with s on loan
        List<Session> idle;
        synchronized (monitor) {
            idle = new ArrayList<>(free);
        }
        for (Session session : idle) {
            synchronized (monitor) {
                free.remove(session);
                live--;
                monitor.notifyAll();
            }
        }
        return idle.size();
    }

    public void awaitIdle() throws InterruptedException { // accepted
        synchronized (monitor) {
            while (live > free.size()) {
                monitor.wait();
            }
        }
    }

    public boolean isShut() { // refused: fault: one look at a field without its lock
        return shut;
    }

    public void shutdown() { // accepted
        synchronized (monitor) {
            shut = true;
            live -= free.size();
            free.clear();
            monitor.notifyAll();
        }
    }

    private boolean canLend() {
        return !free.isEmpty() || live < max;
    }

    private Session lend() {
        if (shut) {
            throw new IllegalStateException("shut down");
        }
        Session session = free.poll();
        if (session == null) {
            session = new Session(factory.get());
            live++;
        }
        session.open = true;
        return session;
    }
}
