// Between the read lock and the write lock another thread may write.
import java.util.concurrent.locks.ReentrantReadWriteLock;

class ReadThenWriteLock {
    private final ReentrantReadWriteLock lock = new ReentrantReadWriteLock();
    @GuardedBy("lock") private int value;

    /* atomic */ int first(int wanted) { // refused
        lock.readLock().lock();
        try {
            if (value != 0) return value;
        } finally {
            lock.readLock().unlock();
        }
        lock.writeLock().lock();
        try {
            value = wanted;
            return value;
        } finally {
            lock.writeLock().unlock();
        }
    }
}

@interface GuardedBy {
    String value();
}
