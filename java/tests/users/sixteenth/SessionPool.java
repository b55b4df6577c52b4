// judged with: --public --infer
package com.example.sixteenth;

import java.util.ArrayDeque;
import java.util.ArrayList;
import java.util.Deque;
import java.util.HashSet;
import java.util.List;
import java.util.Optional;
import java.util.Set;
import java.util.concurrent.locks.Condition;
import java.util.concurrent.locks.Lock;
import java.util.concurrent.locks.ReentrantLock;
import java.util.function.Function;
import java.util.function.Supplier;

/** Pool of sessions to the mail gateway. */
public class SessionPool {

    public interface Session {
        boolean isValid();

        void close();
    }

    private final Lock lock = new ReentrantLock(true);
    private final Condition released = lock.newCondition();
    private final Deque<Session> idle = new ArrayDeque<>();
    private final Set<Session> leased = new HashSet<>();
    private final Supplier<? extends Session> factory;
    private volatile int limit;

    public SessionPool(int limit, Supplier<? extends Session> factory) {
        this.limit = limit;
        this.factory = factory;
    }

    public Session acquire() throws InterruptedException { // refused: alarm: one locked region; the failed tries before an await change nothing; the unknown factory is called while holding the lock, atomic as far as the own state goes
        lock.lockInterruptibly();
        try {
            Session session;
            while ((session = next()) == null) {
                released.await();
            }
            return session;
        } finally {
            lock.unlock();
        }
    }

    public Optional<Session> tryAcquire() { // accepted
        lock.lock();
        try {
            return Optional.ofNullable(next());
        } finally {
            lock.unlock();
        }
    }

    public void release(Session session) { // accepted
        lock.lock();
        try {
            if (!leased.remove(session)) {
                throw new IllegalArgumentException("not leased: " + session);
            }
            idle.addLast(session);
            released.signal();
        } finally {
            lock.unlock();
        }
    }

    /** Runs the work with a session of the pool. */
    public <R> R withSession(Function<? super Session, ? extends R> work) throws InterruptedException { // refused: doubtful: strictly two regions with alien work between, others see the session leased in between; but that is the purpose of a lease bracket, and most would call it correct
        Session session = acquire();
        try {
            return work.apply(session);
        } finally {
            release(session);
        }
    }

    /** Closes the idle sessions that went stale; returns how many there were. */
    public int evictStale() { // refused: fault: a finds an idle session stale, B acquires it before A's second region, A closes the session B is using and counts it as evicted
        List<Session> stale;
        lock.lock();
        try {
            stale = new ArrayList<>(idle);
        } finally {
            lock.unlock();
        }
        stale.removeIf(Session::isValid);
        lock.lock();
        try {
            idle.removeAll(stale);
        } finally {
            lock.unlock();
        }
        stale.forEach(Session::close);
        return stale.size();
    }

    public int leasedCount() { // refused: fault: one look at a field without its lock
        return leased.size();
    }

    public int limit() { // accepted
        return limit;
    }

    public void grow(int extra) { // refused: fault: volatile += is a read and a write: A and B both read 4, both write 5, one growth is lost
        limit += extra;
        lock.lock();
        try {
            released.signalAll();
        } finally {
            lock.unlock();
        }
    }

    private Session next() {
        Session session = idle.pollFirst();
        if (session == null && leased.size() < limit) {
            session = factory.get();
        }
        if (session != null) {
            leased.add(session);
        }
        return session;
    }
}
