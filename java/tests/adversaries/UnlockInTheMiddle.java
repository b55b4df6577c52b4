// The lock is given back and taken again: two regions.
import java.util.concurrent.locks.ReentrantLock;

class UnlockInTheMiddle {
    private final ReentrantLock lock = new ReentrantLock();
    @GuardedBy("lock") private int count;

    /* atomic */ void twice() { // refused
        lock.lock();
        try {
            count++;
            lock.unlock();
            lock.lock();
            count++;
        } finally {
            lock.unlock();
        }
    }
}

@interface GuardedBy {
    String value();
}
