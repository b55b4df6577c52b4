// Arguments run before the call: two regions.
class StepInArgument {
    @GuardedBy("this") private int count;

    private synchronized int get() {
        return count;
    }

    private synchronized void set(int value) {
        count = value;
    }

    /* atomic */ void increment() { // refused
        set(get() + 1);
    }
}

@interface GuardedBy {
    String value();
}
