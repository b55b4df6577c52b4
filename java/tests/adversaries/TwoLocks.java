// Two regions of two locks, one after the other.
class TwoLocks {
    private final Object left = new Object();
    private final Object right = new Object();
    @GuardedBy("left") private int first;
    @GuardedBy("right") private int second;

    /* atomic */ void both() { // refused
        synchronized (left) {
            first++;
        }
        synchronized (right) {
            second++;
        }
    }

    /* atomic */ void bothAtOnce() { // accepted
        synchronized (left) {
            synchronized (right) {
                first++;
                second++;
            }
        }
    }
}

@interface GuardedBy {
    String value();
}
