// begin() takes the lock and end() gives it back; between the two calls another region stands.
import java.util.concurrent.locks.ReentrantLock;

class LockInCallee {
    private final ReentrantLock lock = new ReentrantLock();
    private volatile int count;

    void begin() {
        lock.lock();
    }

    void end() {
        lock.unlock();
    }

    /* atomic */ void twice() { // refused
        begin();
        count = 1;
        end();
        begin();
        count = 2;
        end();
    }
}
