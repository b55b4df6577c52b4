// The class above has no name for the lock of the one below it, so that lock guards none of its fields.
// judged with: --infer
class AboveLock {
    int count;
}

class BelowWithLock extends AboveLock {
    private final Object lock = new Object();
    private int own;

    /* atomic */ void addAbove() { // refused
        synchronized (lock) {
            count++;
        }
    }

    /* atomic */ int above() {
        synchronized (lock) {
            return count;
        }
    }

    /* atomic */ void addOwn() {
        synchronized (lock) {
            own++;
        }
    }
}
