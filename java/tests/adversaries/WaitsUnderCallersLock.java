// A helper that waits, and that is only called where the lock is held, looks under that lock.
// judged with: --public --infer
import java.util.concurrent.locks.Condition;
import java.util.concurrent.locks.ReentrantLock;

public class WaitsUnderCallersLock {
    private final ReentrantLock lock = new ReentrantLock();
    private final Condition changed = lock.newCondition();
    private int left;
    private int steps;

    private void waiting() throws InterruptedException { // accepted
        while (left == 0) {
            changed.await();
        }
    }

    public void take() throws InterruptedException { // refused: the lock is given back behind the first step
        lock.lock();
        try {
            steps++;
            waiting();
            left--;
        } finally {
            lock.unlock();
        }
    }

    public void give() { // accepted
        lock.lock();
        try {
            left++;
            steps++;
            changed.signalAll();
        } finally {
            lock.unlock();
        }
    }

    public int left() { // accepted
        lock.lock();
        try {
            return left + steps;
        } finally {
            lock.unlock();
        }
    }
}
