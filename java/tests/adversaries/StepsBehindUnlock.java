// What stands behind unlock() in the finally block is outside the lock.
import java.util.concurrent.locks.ReentrantLock;

class StepsBehindUnlock {
    private final ReentrantLock lock = new ReentrantLock();
    @GuardedBy("lock") private int count;
    private volatile int calls;

    /* atomic */ int next() { // refused
        lock.lock();
        try {
            return count++;
        } finally {
            lock.unlock();
            calls = count(calls);
        }
    }

    private static int count(int calls) {
        return calls + 1;
    }
}

@interface GuardedBy {
    String value();
}
