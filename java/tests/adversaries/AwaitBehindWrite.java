// As with wait(): await() gives its lock away, and a write stands before it.
import java.util.concurrent.locks.Condition;
import java.util.concurrent.locks.ReentrantLock;

class AwaitBehindWrite {
    private final ReentrantLock lock = new ReentrantLock();
    private final Condition filled = lock.newCondition();
    @GuardedBy("lock") private int count;
    @GuardedBy("lock") private int waiting;

    /* atomic */ int take() throws InterruptedException { // refused
        lock.lock();
        try {
            waiting++;
            while (count == 0) filled.await();
            waiting--;
            return count--;
        } finally {
            lock.unlock();
        }
    }
}

@interface GuardedBy {
    String value();
}
