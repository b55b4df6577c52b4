// Two locks with methods, or this and another object, in an order that is found first: both are held inside.
// judged with: --infer
import java.util.concurrent.locks.ReentrantLock;

class LockPairsByMethods {
    private final ReentrantLock lock = new ReentrantLock();
    private final int key = hashCode();
    private int value;

    /* atomic */ static void move(LockPairsByMethods a, LockPairsByMethods b) { // accepted
        LockPairsByMethods first = a.key < b.key ? a : b;
        LockPairsByMethods second = first == a ? b : a;
        first.lock.lock();
        try {
            second.lock.lock();
            try {
                a.value--;
                b.value++;
            } finally {
                second.lock.unlock();
            }
        } finally {
            first.lock.unlock();
        }
    }
}

class LockPairThis {
    private final int key = hashCode();
    private int value;

    /* atomic */ void moveTo(LockPairThis to) { // accepted
        LockPairThis first = key < to.key ? this : to;
        LockPairThis second = first == this ? to : this;
        synchronized (first) {
            synchronized (second) {
                value--;
                to.value++;
            }
        }
    }

    /* atomic */ synchronized int value() { // accepted
        return value;
    }
}

class LockPairAlone {
    private final ReentrantLock lock = new ReentrantLock();
    private final int key = hashCode();
    private int value;

    void add() {
        lock.lock();
        try {
            value++;
        } finally {
            lock.unlock();
        }
    }

    /* atomic */ static void move(LockPairAlone a, LockPairAlone b) { // refused: behind the inner region one of them isn't locked
        LockPairAlone first = a.key < b.key ? a : b;
        LockPairAlone second = first == a ? b : a;
        first.lock.lock();
        try {
            second.lock.lock();
            try {
                b.value++;
            } finally {
                second.lock.unlock();
            }
            a.value--;
        } finally {
            first.lock.unlock();
        }
    }
}

class LockPairWrong {
    private final int key = hashCode();
    private int value;

    synchronized void add() {
        value++;
    }

    /* atomic */ void moveTo(LockPairWrong to) { // refused: both may be the same object, and then the other one isn't locked
        LockPairWrong first = key < to.key ? this : to;
        LockPairWrong second = first == this ? this : to;
        synchronized (first) {
            synchronized (second) {
                value--;
                to.value++;
            }
        }
    }
}

class LockPairOtherField {
    private final ReentrantLock lock = new ReentrantLock();
    private final ReentrantLock other = new ReentrantLock();
    private final int key = hashCode();
    private int value;

    void add() {
        lock.lock();
        try {
            value++;
        } finally {
            lock.unlock();
        }
    }

    /* atomic */ static void move(LockPairOtherField a, LockPairOtherField b) { // refused: of one of them another lock is held
        LockPairOtherField first = a.key < b.key ? a : b;
        LockPairOtherField second = first == a ? b : a;
        first.lock.lock();
        try {
            second.other.lock();
            try {
                a.value--;
                b.value++;
            } finally {
                second.other.unlock();
            }
        } finally {
            first.lock.unlock();
        }
    }
}
