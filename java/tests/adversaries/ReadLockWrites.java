// Two threads may hold the read lock at once.
import java.util.concurrent.locks.ReentrantReadWriteLock;

class ReadLockWrites {
    private final ReentrantReadWriteLock lock = new ReentrantReadWriteLock();
    @GuardedBy("lock") private int value;
    @GuardedBy("lock") private int reads;

    /* atomic */ int get() { // refused
        lock.readLock().lock();
        try {
            reads++;
            return value;
        } finally {
            lock.readLock().unlock();
        }
    }
}

@interface GuardedBy {
    String value();
}
