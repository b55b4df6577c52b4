package com.example.pool;

import com.google.errorprone.annotations.concurrent.GuardedBy;
import java.util.ArrayDeque;
import java.util.Deque;
import java.util.concurrent.Callable;

/** A pool of things that are dear to make and are used by one thread at a time. */
// judged with: --public
public class ConnectionPool<C extends AutoCloseable> implements AutoCloseable {
    private final Object lock = new Object();
    private final Callable<C> factory;
    private final int limit;

    @GuardedBy("lock")
    private final Deque<C> idle = new ArrayDeque<>();

    @GuardedBy("lock")
    private int open;

    @GuardedBy("lock")
    private boolean closed;

    public ConnectionPool(Callable<C> factory, int limit) {
        this.factory = factory;
        this.limit = limit;
    }

    public C acquire() throws Exception { // refused: fault: the place is taken in the region, and the connection is made behind it
        synchronized (lock) {
            while (!closed && idle.isEmpty() && open == limit) {
                lock.wait();
            }
            if (closed) {
                throw new IllegalStateException("pool is closed");
            }
            if (!idle.isEmpty()) {
                return idle.pop();
            }
            open++;
        }
        try {
            return factory.call();
        } catch (Exception failed) {
            synchronized (lock) {
                open--;
                lock.notify();
            }
            throw failed;
        }
    }

    public C tryAcquire() { // accepted
        synchronized (lock) {
            return idle.poll();
        }
    }

    public void release(C connection) { // accepted
        synchronized (lock) {
            idle.push(connection);
            lock.notify();
        }
    }

    public int idleCount() { // accepted
        synchronized (lock) {
            return idle.size();
        }
    }

    public int inUse() { // accepted
        synchronized (lock) {
            return open - idle.size();
        }
    }

    public String status() { // refused: fault: two regions, so the two numbers may not belong together
        return inUse() + " in use, " + idleCount() + " idle";
    }

    public boolean awaitIdle(long millis) throws InterruptedException { // refused: fault: wait() isn't in a loop
        synchronized (lock) {
            boolean was = idle.isEmpty();
            if (was) {
                lock.wait(millis);
            }
            return was && !idle.isEmpty();
        }
    }

    @Override
    public void close() throws Exception { // refused: fault: what is idle is closed behind the region, one after the other
        Deque<C> last;
        synchronized (lock) {
            closed = true;
            last = new ArrayDeque<>(idle);
            idle.clear();
            lock.notifyAll();
        }
        for (C connection : last) {
            connection.close();
        }
    }
}
