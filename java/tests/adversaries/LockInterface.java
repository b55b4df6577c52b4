// Which lock `lock` is isn't known where the field isn't final.
import java.util.concurrent.locks.Lock;
import java.util.concurrent.locks.ReentrantLock;

class LockInterface {
    private Lock lock = new ReentrantLock();
    private volatile int left;
    private volatile int right;

    void use(Lock given) {
        lock = given;
    }

    /* atomic */ void both() { // refused
        lock.lock();
        try {
            left = 1;
            right = 2;
        } finally {
            lock.unlock();
        }
    }
}
