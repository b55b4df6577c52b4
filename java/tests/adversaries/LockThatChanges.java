// The field that holds the lock isn't final: two threads may hold two locks.
class LockThatChanges {
    private Object lock = new Object();
    @GuardedBy("lock") private int value;

    /* atomic */ void add() { // refused
        synchronized (lock) {
            value++;
        }
    }

    void change() {
        lock = new Object();
    }
}

@interface GuardedBy {
    String value();
}
