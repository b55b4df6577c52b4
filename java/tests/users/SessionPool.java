package com.example.sessions;

import java.util.ArrayDeque;
import java.util.ArrayList;
import java.util.Deque;
import java.util.HashMap;
import java.util.HashSet;
import java.util.List;
import java.util.Map;
import java.util.Optional;
import java.util.Set;
import java.util.concurrent.TimeUnit;
import java.util.concurrent.atomic.AtomicInteger;
import java.util.function.Function;

/** A pool of sessions. What is lent comes back when its lease is closed. */
// judged with: --public --infer
public class SessionPool {

    /** A session, which knows how often it was lent. */
    private static final class Session {
        private static final AtomicInteger MADE = new AtomicInteger();
        private final int number = MADE.incrementAndGet();
        private int uses;
        private long last;

        private boolean isWorn(int most) {
            return uses >= most;
        }

        private String title() {
            return "session " + number;
        }
    }

    /** How many there are of each kind. */
    public record Census(int idle, int lent, long waits) {
        public Census {
            if (idle < 0 || lent < 0) {
                throw new IllegalArgumentException();
            }
        }

        public int all() { // accepted
            return idle + lent;
        }
    }

    /** The right to one session, until it is closed. */
    public final class Lease implements AutoCloseable {
        private Session session;

        private Lease(Session session) {
            this.session = session;
        }

        public boolean isOpen() { // accepted
            synchronized (SessionPool.this) {
                return session != null;
            }
        }

        public String title() { // accepted
            synchronized (SessionPool.this) {
                return session == null ? "closed" : session.title();
            }
        }

        @Override
        public void close() { // accepted
            synchronized (SessionPool.this) {
                if (session != null) {
                    takeBack(session);
                    session = null;
                }
            }
        }

        public Lease renewed() throws InterruptedException { // refused: fault: it is given back in one region and lent in another
            close();
            return acquire();
        }
    }

    private static final Map<String, SessionPool> POOLS = new HashMap<>();
    private final Deque<Session> idle = new ArrayDeque<>();
    private final Set<Session> lent = new HashSet<>();
    private final int most;
    private final int wear;
    private long waits;
    private boolean open = true;

    public SessionPool(int most, int wear) {
        this.most = most;
        this.wear = wear;
    }

    public static SessionPool named(String name) { // accepted
        synchronized (POOLS) {
            return POOLS.computeIfAbsent(name, key -> new SessionPool(4, 100));
        }
    }

    public static void forgetAll() { // accepted
        synchronized (POOLS) {
            POOLS.clear();
        }
    }

    public synchronized Lease acquire() throws InterruptedException { // accepted
        while (open && idle.isEmpty()) {
            wait();
        }
        if (!open) {
            throw new IllegalStateException("closed");
        }
        return lend();
    }

    public synchronized Optional<Lease> acquire(long time, TimeUnit unit) throws InterruptedException { // accepted
        final long end = System.nanoTime() + unit.toNanos(time);
        while (open && idle.isEmpty()) {
            long left = TimeUnit.NANOSECONDS.toMillis(end - System.nanoTime());
            if (left <= 0) {
                return Optional.empty();
            }
            wait(left);
        }
        return open ? Optional.of(lend()) : Optional.empty();
    }

    public synchronized Optional<Lease> tryAcquire() { // accepted
        return open && !idle.isEmpty() ? Optional.of(lend()) : Optional.empty();
    }

    private Lease lend() {
        var session = idle.pop();
        session.uses++;
        session.last = System.currentTimeMillis();
        lent.add(session);
        return new Lease(session);
    }

    private void takeBack(Session session) {
        if (lent.remove(session) && open && !session.isWorn(wear)) {
            idle.push(session);
            notify();
        }
    }

    public synchronized int fill(int wanted) { // refused: fault: each session draws its number in a step of its own
        int made = 0;
        for (int target = Math.min(wanted, most); idle.size() + lent.size() < target; made++) {
            idle.addLast(new Session());
        }
        notifyAll();
        return made;
    }

    public synchronized Census census() { // accepted
        return new Census(idle.size(), lent.size(), waits);
    }

    public synchronized void countWait() { // accepted
        waits++;
    }

    public boolean isExhausted() { // refused: fault: two regions
        return census().idle() == 0 && census().lent() >= most;
    }

    public int all() { // accepted
        return census().all();
    }

    public synchronized List<String> titles() { // accepted
        return idle.stream().map(Session::title).sorted().toList();
    }

    public synchronized Optional<String> oldest() { // accepted
        Session found = null;
        for (var each : idle) {
            if (found == null || each.last < found.last) {
                found = each;
            }
        }
        return Optional.ofNullable(found).map(Session::title);
    }

    public synchronized int discardUnused(long since) { // accepted
        var unused = new ArrayList<Session>();
        for (var each : idle) {
            if (each.last < since) {
                unused.add(each);
            }
        }
        idle.removeAll(unused);
        return unused.size();
    }

    public <R> R with(Function<? super String, R> use) throws InterruptedException { // refused: fault: it is lent, used and given back
        try (var lease = acquire()) {
            return use.apply(lease.title());
        }
    }

    public void shutDown() { // accepted
        synchronized (this) {
            open = false;
            idle.clear();
            lent.clear();
            notifyAll();
        }
    }
}
