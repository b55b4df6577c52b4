// A method that only takes locks stands for them, where it is surely the one that runs, and all of them are given back.
import java.util.concurrent.locks.ReentrantLock;

class LocksByHelper {
    private final ReentrantLock first = new ReentrantLock();
    private final ReentrantLock second = new ReentrantLock();
    @GuardedBy("first") private int count;
    @GuardedBy("second") private int sum;
    volatile int seen;

    private void lockBoth() {
        first.lock();
        second.lock();
    }

    private void unlockBoth() {
        second.unlock();
        first.unlock();
    }

    private void unlockSecond() {
        second.unlock();
    }

    private void lockAndCount() {
        first.lock();
        seen = 1;
        second.lock();
    }

    void lockForHeirs() {
        first.lock();
        second.lock();
    }

    /* atomic */ void both(int value) { // accepted
        lockBoth();
        try {
            count++;
            sum += value;
        } finally {
            unlockBoth();
        }
    }

    /* atomic */ void bothInTry(int value) { // accepted
        try {
            lockBoth();
            count++;
            sum += value;
        } finally {
            unlockBoth();
        }
    }

    /* atomic */ void behind(int value) { // refused
        lockBoth();
        try {
            count++;
        } finally {
            unlockBoth();
        }
        sum += value;
    }

    /* atomic */ void givesOneBack(int value) { // refused
        lockBoth();
        try {
            count++;
            sum += value;
        } finally {
            unlockSecond();
        }
    }

    /* atomic */ void doesMore(int value) { // refused
        seen = 2;
        lockAndCount();
        try {
            count++;
            sum += value;
        } finally {
            unlockBoth();
        }
    }

    /* atomic */ void ofAnother(LocksByHelper other, int value) { // refused
        other.lockBoth();
        try {
            count++;
            sum += value;
        } finally {
            other.unlockBoth();
        }
    }

    /* atomic */ void overridden(int value) { // refused
        lockForHeirs();
        try {
            count++;
            sum += value;
        } finally {
            unlockBoth();
        }
    }

    static class Heir extends LocksByHelper {
        @Override
        void lockForHeirs() {
        }
    }
}

@interface GuardedBy {
    String value();
}
