// The lock that is held is another one.
class HoldingWrongLock {
    private final Object left = new Object();
    private final Object right = new Object();
    @GuardedBy("left") private int value;

    @Holding("left")
    private void add() {
        value++;
    }

    /* atomic */ void addBoth() { // refused
        synchronized (right) {
            add();
        }
    }
}

@interface GuardedBy {
    String value();
}

@interface Holding {
    String[] value();
}
