// The lock of the other object is released in front of the write: nothing that comes behind it can be moved before it.
class LockOfTheOther {
    @GuardedBy("this") private int value;

    private synchronized void set(int value) {
        this.value = value;
    }

    private LockOfTheOther choose(LockOfTheOther other) {
        return other == null ? this : other;
    }

    /* atomic */ void copy(LockOfTheOther other) { // refused
        synchronized (choose(other)) {
        }
        set(1);
    }
}

@interface GuardedBy {
    String value();
}
