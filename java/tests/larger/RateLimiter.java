package limits;

import atomic.Atomic;
import java.util.ArrayDeque;
import java.util.Deque;
import java.util.concurrent.TimeUnit;
import java.util.concurrent.atomic.AtomicLong;
import java.util.concurrent.locks.Lock;
import java.util.concurrent.locks.ReentrantLock;
import javax.annotation.concurrent.GuardedBy;

/** Lets through so many calls in a second. */
public class RateLimiter {
    private final Lock lock = new ReentrantLock();
    private final AtomicLong refused = new AtomicLong();
    private final int most;
    @GuardedBy("lock") private final Deque<Long> times = new ArrayDeque<>();
    @GuardedBy("lock") private long allowed;
    @GuardedBy("lock") private long window = TimeUnit.SECONDS.toNanos(1);

    public RateLimiter(int most) {
        this.most = most;
    }

    @Atomic
    public boolean tryNow(long now) {
        lock.lock();
        try {
            forget(now);
            if (times.size() >= most) {
                return false;
            }
            times.addLast(now);
            allowed++;
            return true;
        } finally {
            lock.unlock();
        }
    }

    @Atomic
    public long allowed() {
        lock.lock();
        try {
            return allowed;
        } finally {
            lock.unlock();
        }
    }

    @Atomic
    public void window(long nanos) {
        if (nanos <= 0) {
            throw new IllegalArgumentException("window of " + nanos);
        }
        lock.lock();
        try {
            window = nanos;
            times.clear();
        } finally {
            lock.unlock();
        }
    }

    @Atomic
    public void refuse() {
        refused.incrementAndGet();
    }

    @Atomic
    public long refused() {
        return refused.get();
    }

    @Atomic
    public long nextFree(long now) {
        lock.lock();
        try {
            forget(now);
            Long first = times.peekFirst();
            return times.size() < most || first == null ? now : first + window;
        } finally {
            lock.unlock();
        }
    }

    @GuardedBy("lock") // harmless without holding: what every caller of a private method holds is found without it
    private void forget(long now) {
        while (!times.isEmpty() && times.peekFirst() <= now - window) {
            times.removeFirst();
        }
    }
}
