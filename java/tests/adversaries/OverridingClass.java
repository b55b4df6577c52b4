// The call may run the method of the class below, which has two regions.
class OverridingClass {
    @GuardedBy("this") protected int value;

    /* atomic */ void set(int value) { // refused
        synchronized (this) {
            this.value = value;
        }
    }

    /* atomic */ void reset() { // refused
        set(0);
    }
}

class Twice extends OverridingClass {
    @Override
    void set(int value) {
        super.set(value);
        super.set(value + 1);
    }
}

@interface GuardedBy {
    String value();
}
