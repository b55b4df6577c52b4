// tryLock() may fail, and then the field is written without the lock.
import java.util.concurrent.locks.ReentrantLock;

class LockPerhaps {
    private final ReentrantLock lock = new ReentrantLock();
    @GuardedBy("lock") private int count;

    /* atomic */ void next() { // refused
        boolean locked = lock.tryLock();
        try {
            count++;
        } finally {
            if (locked) lock.unlock();
        }
    }
}

@interface GuardedBy {
    String value();
}
