// The return in front of try leaves the lock taken, and the next call takes it once more.
import java.util.concurrent.locks.ReentrantLock;

class LockReturnedEarly {
    private final ReentrantLock lock = new ReentrantLock();
    @GuardedBy("lock") private int count;
    private volatile int calls;

    /* atomic */ int next() { // refused
        calls = 1;
        lock.lock();
        try {
            count++;
        } finally {
            lock.unlock();
        }
        return calls;
    }
}

@interface GuardedBy {
    String value();
}
