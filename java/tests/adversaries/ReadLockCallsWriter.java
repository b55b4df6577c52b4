// The write stands in a method that is called under the read lock.
import java.util.concurrent.locks.ReentrantReadWriteLock;

class ReadLockCallsWriter {
    private final ReentrantReadWriteLock lock = new ReentrantReadWriteLock();
    @GuardedBy("lock") private int value;
    @GuardedBy("lock") private int reads;

    private int read() {
        reads++;
        return value;
    }

    /* atomic */ int get() { // refused
        lock.readLock().lock();
        try {
            return read();
        } finally {
            lock.readLock().unlock();
        }
    }
}

@interface GuardedBy {
    String value();
}
