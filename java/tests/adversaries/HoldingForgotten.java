// The method says that its caller holds the lock. This caller doesn't.
class HoldingForgotten {
    @GuardedBy("this") private int value;

    @Holding("this")
    private void add() {
        value++;
    }

    /* atomic */ synchronized void addLocked() { // accepted
        add();
    }

    /* atomic */ void addBare() { // refused
        add();
    }
}

@interface GuardedBy {
    String value();
}

@interface Holding {
    String[] value();
}
