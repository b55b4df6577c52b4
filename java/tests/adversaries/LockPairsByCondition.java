// Two locks in an order that one condition says twice. Where it may tell otherwise the second time, or not both are held, they guard
// nothing.
// judged with: --public
import java.util.concurrent.locks.Lock;
import java.util.concurrent.locks.ReentrantLock;

public class LockPairsByCondition {
    @interface GuardedBy {
        String value();
    }

    private final Lock lock = new ReentrantLock();
    private final int id;
    private volatile int rank;
    @GuardedBy("lock") private int cents;

    LockPairsByCondition(int id) {
        this.id = id;
    }

    void rank(int value) {
        rank = value;
    }

    public static void pay(LockPairsByCondition a, LockPairsByCondition b) { // accepted
        LockPairsByCondition first = a.id < b.id ? a : b;
        LockPairsByCondition second = a.id < b.id ? b : a;
        first.lock.lock();
        second.lock.lock();
        try {
            a.cents--;
            b.cents++;
        } finally {
            second.lock.unlock();
            first.lock.unlock();
        }
    }

    public static void nested(LockPairsByCondition a, LockPairsByCondition b) { // accepted
        boolean ordered = a.id < b.id;
        LockPairsByCondition first = ordered ? a : b;
        LockPairsByCondition second = ordered ? b : a;
        first.lock.lock();
        try {
            second.lock.lock();
            try {
                a.cents--;
                b.cents++;
            } finally {
                second.lock.unlock();
            }
        } finally {
            first.lock.unlock();
        }
    }

    public static void changing(LockPairsByCondition a, LockPairsByCondition b) { // refused: the ranks may change in between
        LockPairsByCondition first = a.rank < b.rank ? a : b;
        LockPairsByCondition second = a.rank < b.rank ? b : a;
        first.lock.lock();
        second.lock.lock();
        try {
            a.cents--;
            b.cents++;
        } finally {
            second.lock.unlock();
            first.lock.unlock();
        }
    }

    public static void same(LockPairsByCondition a, LockPairsByCondition b) { // refused: both are the same one
        LockPairsByCondition first = a.id < b.id ? a : b;
        LockPairsByCondition second = a.id < b.id ? a : b;
        first.lock.lock();
        second.lock.lock();
        try {
            a.cents--;
            b.cents++;
        } finally {
            second.lock.unlock();
            first.lock.unlock();
        }
    }

    public static void otherCondition(LockPairsByCondition a, LockPairsByCondition b) { // refused
        LockPairsByCondition first = a.id < b.id ? a : b;
        LockPairsByCondition second = a.id <= b.id ? b : a;
        first.lock.lock();
        second.lock.lock();
        try {
            a.cents--;
            b.cents++;
        } finally {
            second.lock.unlock();
            first.lock.unlock();
        }
    }

    public static void behind(LockPairsByCondition a, LockPairsByCondition b) { // refused: the one is given back before
        a.lock.lock();
        b.lock.lock();
        try {
            a.cents--;
        } finally {
            b.lock.unlock();
            a.lock.unlock();
        }
        b.cents++;
    }

    public static void twice(LockPairsByCondition a, LockPairsByCondition b) { // accepted: by their own names
        a.lock.lock();
        b.lock.lock();
        try {
            a.cents--;
            b.cents++;
        } finally {
            a.lock.unlock();
            b.lock.unlock();
        }
    }

    public static void oneOnly(LockPairsByCondition a, LockPairsByCondition b) { // refused
        a.lock.lock();
        a.lock.lock();
        try {
            a.cents--;
            b.cents++;
        } finally {
            a.lock.unlock();
            a.lock.unlock();
        }
    }
}
