// summary: 5 methods: 5 exact, 0 assumed, 0 approximated; 3 promise to be atomic: 0 are, 3 refused; 1 found atomic, 4 errors
/** One method is written several times in the skeleton: each subclass has a copy of what it calls by {@code super}. */
abstract class Promises {
    @GuardedBy("this") protected int value;

    /* atomic */ void twice() {
        synchronized (this) {
            value++;
        }
        synchronized (this) {
            value++;
        }
    }

    void bare() {
        value++;
    }

    synchronized int value() {
        return value;
    }
}

class Left extends Promises {
    @Override
    void twice() {
        super.twice();
    }
}

class Right extends Promises {
    @Override
    void twice() {
        super.twice();
    }
}

@interface GuardedBy {
    String value();
}
