// The field above is written by the class above under another lock.
class InheritedField extends Above {
    /* atomic */ synchronized void twice() { // refused
        value++;
        value++;
    }
}

class Above {
    protected final Object lock = new Object();
    @GuardedBy("lock") protected int value;

    void add() {
        synchronized (lock) {
            value++;
        }
    }
}

@interface GuardedBy {
    String value();
}
