// The lock is whatever pick() gives. It guards nothing here, but to take it and give it back is a step, and there are two of them.
class LockWithoutName {
    private final Object left = new Object();
    private final Object right = new Object();
    volatile boolean turn;

    Object pick(boolean first) {
        return first ? left : right;
    }

    /* atomic */ void both(boolean first) { // refused
        synchronized (pick(first)) {
            turn = true;
        }
        synchronized (pick(!first)) {
            turn = false;
        }
    }
}
