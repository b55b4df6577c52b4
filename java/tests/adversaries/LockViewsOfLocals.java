// Two parts of one lock that a local of the constructor names are one lock; parts of two locks are two.
// judged with: --infer
import java.util.concurrent.locks.*;

class LockViewsOfLocals {
    private final Lock read;
    private final Lock write;
    private int one;
    private int other;

    LockViewsOfLocals() {
        var both = new ReentrantReadWriteLock();
        read = both.readLock();
        write = both.writeLock();
    }

    /* atomic */ int look() { // accepted
        read.lock();
        try {
            return one + other;
        } finally {
            read.unlock();
        }
    }

    /* atomic */ void move() { // accepted
        write.lock();
        try {
            one--;
            other++;
        } finally {
            write.unlock();
        }
    }
}

class ConditionOfLocal {
    private final Lock lock;
    private final Condition filled;
    private int count;

    ConditionOfLocal() {
        ReentrantLock made = new ReentrantLock();
        filled = made.newCondition();
        lock = made;
    }

    /* atomic */ void take() throws InterruptedException { // accepted
        lock.lock();
        try {
            while (count == 0) {
                filled.await();
            }
            count--;
        } finally {
            lock.unlock();
        }
    }

    /* atomic */ void give() { // accepted
        lock.lock();
        try {
            count++;
            filled.signal();
        } finally {
            lock.unlock();
        }
    }
}

class LockViewsOfTwoLocals {
    private final Lock read;
    private final Lock write;
    private int one;
    private int other;

    LockViewsOfTwoLocals() {
        var mine = new ReentrantReadWriteLock();
        var yours = new ReentrantReadWriteLock();
        read = mine.readLock();
        write = yours.writeLock();
    }

    /* atomic */ int look() { // refused: it holds the other lock
        read.lock();
        try {
            return one + other;
        } finally {
            read.unlock();
        }
    }

    /* atomic */ void move() { // refused: nobody who looks takes this lock
        write.lock();
        try {
            one--;
            other++;
        } finally {
            write.unlock();
        }
    }
}

class LockViewsOfLocalThatChanges {
    private final Lock read;
    private final Lock write;
    private int one;
    private int other;

    LockViewsOfLocalThatChanges() {
        var both = new ReentrantReadWriteLock();
        read = both.readLock();
        both = new ReentrantReadWriteLock();
        write = both.writeLock();
    }

    /* atomic */ int look() { // refused: the local was another lock then
        read.lock();
        try {
            return one + other;
        } finally {
            read.unlock();
        }
    }

    /* atomic */ void move() { // refused
        write.lock();
        try {
            one--;
            other++;
        } finally {
            write.unlock();
        }
    }
}

class LockViewsInTurns {
    private Lock read;
    private Lock write;
    private int one;
    private int other;

    LockViewsInTurns(int turns) {
        for (int turn = 0; turn < turns; turn++) {
            var both = new ReentrantReadWriteLock();
            if (turn == 0) {
                read = both.readLock();
            } else {
                write = both.writeLock();
            }
        }
    }

    /* atomic */ int look() { // refused: each turn has its own lock
        read.lock();
        try {
            return one + other;
        } finally {
            read.unlock();
        }
    }

    /* atomic */ void move() { // refused
        write.lock();
        try {
            one--;
            other++;
        } finally {
            write.unlock();
        }
    }
}

class LockViewsWithinShared {
    private final Lock read;
    private final Lock write;
    private int one;
    private int other;

    LockViewsWithinShared() {
        var both = new ReentrantReadWriteLock();
        read = both.readLock();
        write = both.writeLock();
    }

    /* atomic */ void move() { // refused: readers don't keep each other away
        read.lock();
        try {
            one--;
            other++;
        } finally {
            read.unlock();
        }
    }

    /* atomic */ int look() { // refused: others change it while they only hold the lock of readers
        write.lock();
        try {
            return one + other;
        } finally {
            write.unlock();
        }
    }
}
