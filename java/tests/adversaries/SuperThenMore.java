// The method of the class above is one region, and then this one adds another.
class SuperThenMore extends Cell {
    @GuardedBy("this") private int changes;

    @Override
    /* atomic */ void set(int value) { // refused
        super.set(value);
        synchronized (this) {
            changes++;
        }
    }
}

class Cell {
    @GuardedBy("this") private int value;

    void set(int value) {
        synchronized (this) {
            this.value = value;
        }
    }
}

@interface GuardedBy {
    String value();
}
