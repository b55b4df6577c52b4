// A stamped lock is held where it is given back in the form that is known, and by readers it is shared.
import java.util.concurrent.locks.StampedLock;

class StampedModes {
    private final StampedLock lock = new StampedLock();
    @GuardedBy("lock") private int v;

    /* atomic */ void f() { // refused
        long stamp = lock.readLock();
        try {
            v++;
        } finally {
            lock.unlockRead(stamp);
        }
    }

    /* atomic */ int g() { // refused
        long stamp = lock.tryOptimisticRead();
        try {
            return v + v;
        } finally {
            lock.validate(stamp);
        }
    }

    /* atomic */ void h() { // refused
        long stamp = lock.readLock();
        try {
            int seen = v;
            lock.unlockRead(stamp);
            stamp = lock.writeLock();
            v = seen + 1;
        } finally {
            lock.unlock(stamp);
        }
    }

    /* atomic */ void k() { // accepted
        long stamp = lock.writeLock();
        try {
            v++;
            v++;
        } finally {
            lock.unlockWrite(stamp);
        }
    }

    /* atomic */ void l() { // refused
        long stamp = lock.tryWriteLock();
        try {
            v++;
        } finally {
            lock.unlockWrite(stamp);
        }
    }
}

@interface GuardedBy {
    String value();
}
