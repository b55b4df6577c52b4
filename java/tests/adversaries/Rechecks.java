// A look in front of a region counts as none only where the region's own look decides alone, and tells what the first did.
// judged with: --infer
import java.util.concurrent.atomic.AtomicInteger;
import java.util.concurrent.locks.Lock;
import java.util.concurrent.locks.ReentrantLock;

class Rechecks {
    private final Lock lock = new ReentrantLock();
    private final AtomicInteger count = new AtomicInteger();
    private volatile Rechecks made;
    private volatile Rechecks kept;
    private volatile Rechecks twice;
    private volatile Rechecks other;
    private volatile boolean ready;
    private Rechecks plain;
    private int total;
    private int hits;
    private int rows;
    private int setups;

    synchronized void take(Rechecks wanted) {
        kept = wanted;
        other = wanted;
        ready = false;
        total++;
        hits++;
        rows++;
        setups++;
        plain = wanted;
    }

    void touch() {
        lock.lock();
        try {
            count.incrementAndGet();
        } finally {
            lock.unlock();
        }
    }

    /* atomic */ Rechecks set() { // accepted: the field is set once
        if (made == null) {
            synchronized (this) {
                if (made == null) {
                    made = new Rechecks();
                }
            }
        }
        return made;
    }

    /* atomic */ Rechecks inLocal() { // accepted
        Rechecks found = kept;
        if (found == null) {
            synchronized (this) {
                found = kept;
                if (found == null) {
                    found = new Rechecks();
                    kept = found;
                }
            }
        }
        return found;
    }

    /* atomic */ Rechecks early() { // accepted
        Rechecks found = kept;
        if (found != null) {
            return found;
        }
        synchronized (this) {
            if (kept == null) {
                kept = new Rechecks();
            }
            return kept;
        }
    }

    /* atomic */ int peek() { // accepted
        if (count.get() == 0) {
            return -1;
        }
        lock.lock();
        try {
            return count.get() > 0 ? 1 : -1;
        } finally {
            lock.unlock();
        }
    }

    /* atomic */ boolean prepare() { // accepted
        if (ready) {
            return false;
        }
        synchronized (this) {
            if (ready) {
                return false;
            }
            setups++;
            ready = true;
            return true;
        }
    }

    /* atomic */ Rechecks takenBack() { // refused: the second look may see that it was taken back
        if (kept == null) {
            synchronized (this) {
                if (kept == null) {
                    kept = new Rechecks();
                }
            }
        }
        return kept;
    }

    /* atomic */ Rechecks setTwice() { // refused: it is set here, and below, so its value doesn't stay
        if (twice == null) {
            synchronized (this) {
                if (twice == null) {
                    twice = new Rechecks();
                }
            }
        }
        return twice;
    }

    synchronized void again() {
        twice = new Rechecks();
    }

    /* atomic */ Rechecks stale() { // refused: the local keeps what the first look saw
        Rechecks found = kept;
        if (found == null) {
            synchronized (this) {
                if (kept == null) {
                    found = new Rechecks();
                    kept = found;
                }
            }
        }
        return found;
    }

    /* atomic */ int unchecked() { // refused: the region doesn't look again
        if (ready) {
            return -1;
        }
        synchronized (this) {
            return total++;
        }
    }

    /* atomic */ int differently() { // refused: the region's look leads to another result
        if (ready) {
            return -1;
        }
        synchronized (this) {
            if (ready) {
                return -2;
            }
            return total++;
        }
    }

    /* atomic */ void alsoOtherwise() { // refused: the region does something in any case
        if (kept == null) {
            synchronized (this) {
                if (kept == null) {
                    kept = new Rechecks();
                }
                hits++;
            }
        }
    }

    /* atomic */ void anotherField() { // refused: the region looks at another field
        if (kept == null) {
            synchronized (this) {
                if (other == null) {
                    rows++;
                }
            }
        }
    }

    /* atomic */ Rechecks beforeTheRegion() { // refused: what the first look saw is kept under another name
        if (kept == null) {
            Rechecks seen = kept;
            synchronized (this) {
                if (kept == null) {
                    kept = seen;
                }
            }
        }
        return null;
    }

    /* atomic */ int behindAnotherStep() { // refused: a step, and then a look or a region
        int before = count.get();
        if (kept == null) {
            synchronized (this) {
                if (kept == null) {
                    kept = new Rechecks();
                }
            }
        }
        return before;
    }

    /* atomic */ Rechecks withoutVolatile() { // refused: nothing tells others of the field
        if (plain == null) {
            synchronized (this) {
                if (plain == null) {
                    plain = new Rechecks();
                }
            }
        }
        return plain;
    }

    /* atomic */ int negative() { // refused: what isn't 0 may be less, and then the results differ
        if (count.get() <= 0) {
            return -1;
        }
        lock.lock();
        try {
            return count.get() == 0 ? -1 : 1;
        } finally {
            lock.unlock();
        }
    }
}

class LockOfEach {
    private static volatile LockOfEach shared;

    /* atomic */ LockOfEach get() { // refused: each object takes its own lock, so the field may be set twice
        if (shared == null) {
            synchronized (this) {
                if (shared == null) {
                    shared = new LockOfEach();
                }
            }
        }
        return shared;
    }
}

class LockOfCaller {
    private volatile LockOfCaller shared;

    /* atomic */ LockOfCaller get(Object lock) { // refused: two callers may bring two locks
        if (shared == null) {
            synchronized (lock) {
                if (shared == null) {
                    shared = new LockOfCaller();
                }
            }
        }
        return shared;
    }
}
