package com.example.pages;

import java.util.ArrayDeque;
import java.util.Deque;
import java.util.concurrent.Semaphore;

/** A pool of pages: a semaphore counts those that may be taken, a lock guards those that are kept. */
// judged with: --public --infer
public class PageBuffers {
    private final int pageSize;
    private final int limit;
    private final Semaphore permits;
    private final Object lock = new Object();
    private final Deque<byte[]> kept = new ArrayDeque<>();
    private int made;
    private volatile boolean closed;

    public PageBuffers(int pageSize, int limit) {
        this.pageSize = pageSize;
        this.limit = limit;
        permits = new Semaphore(limit);
    }

    public int pageSize() { // accepted
        return pageSize;
    }

    private byte[] next() {
        synchronized (lock) {
            byte[] page = kept.pollFirst();
            if (page == null) {
                made++;
                page = new byte[pageSize];
            }
            return page;
        }
    }

    public byte[] acquire() throws InterruptedException { // refused: fault: the permit is taken in one step and the page in another
        if (closed) {
            throw new IllegalStateException("closed");
        }
        permits.acquire();
        return next();
    }

    public byte[] tryAcquire() { // refused: fault: the same
        return permits.tryAcquire() ? next() : null;
    }

    public void release(byte[] page) { // refused: fault: the page is put back in one step and the permit in another
        if (page.length != pageSize) {
            throw new IllegalArgumentException("a page of " + page.length);
        }
        synchronized (lock) {
            kept.addFirst(page);
        }
        permits.release();
    }

    public int available() { // accepted
        return permits.availablePermits();
    }

    public int inUse() { // accepted
        return limit - permits.availablePermits();
    }

    public int kept() { // accepted
        synchronized (lock) {
            return kept.size();
        }
    }

    public String status() { // refused: fault: two regions and a look at the semaphore
        return kept() + " kept of " + made() + ", " + available() + " free";
    }

    public int made() { // accepted
        synchronized (lock) {
            return made;
        }
    }

    public void trim(int most) { // accepted
        synchronized (lock) {
            while (kept.size() > most) {
                kept.removeLast();
                made--;
            }
        }
    }

    public void warm(int count) { // accepted
        synchronized (lock) {
            for (int k = 0; k < count && made < limit; k++) {
                kept.addLast(new byte[pageSize]);
                made++;
            }
        }
    }

    public boolean isClosed() { // accepted
        return closed;
    }

    public void close() { // refused: fault: it is closed in one step and emptied in another
        closed = true;
        trim(0);
    }
}
