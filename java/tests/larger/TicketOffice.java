package tickets;

import atomic.Atomic;
import java.util.concurrent.locks.Condition;
import java.util.concurrent.locks.ReentrantLock;
import net.jcip.annotations.GuardedBy;

/** Tickets that are sold and given back, under a lock of java.util.concurrent. */
public class TicketOffice {
    private final ReentrantLock lock = new ReentrantLock();
    private final Condition returned = lock.newCondition();
    @GuardedBy("lock") private int left;
    @GuardedBy("lock") private int sold;
    @GuardedBy("lock") private boolean open = true;

    public TicketOffice(int tickets) {
        left = tickets;
    }

    @Atomic
    public boolean buy() {
        lock.lock();
        try {
            if (!open || left == 0) {
                return false;
            }
            sell();
            return true;
        } finally {
            lock.unlock();
        }
    }

    @Atomic
    public void buyPatiently() throws InterruptedException {
        lock.lockInterruptibly();
        try {
            while (left == 0) {
                returned.await();
            }
            sell();
        } finally {
            lock.unlock();
        }
    }

    @Atomic
    public int buyAll(int wanted) {
        lock.lock();
        try {
            int bought = 0;
            while (bought < wanted && left > 0) {
                sell();
                bought++;
            }
            return bought;
        } finally {
            lock.unlock();
        }
    }

    @Atomic
    public void giveBack() {
        lock.lock();
        try {
            if (sold > 0) {
                sold--;
                left++;
                returned.signal();
            }
        } finally {
            lock.unlock();
        }
    }

    @Atomic
    public int close() {
        lock.lock();
        try {
            open = false;
            returned.signalAll();
            return left;
        } finally {
            lock.unlock();
        }
    }

    @GuardedBy("lock") // harmless without holding: what every caller of a private method holds is found without it
    private void sell() {
        left--;
        sold++;
    }
}
