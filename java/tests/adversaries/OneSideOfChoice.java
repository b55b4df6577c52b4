// Which side runs isn't known: the second one takes the lock twice.
class OneSideOfChoice {
    @GuardedBy("this") private int value;

    private synchronized int get() {
        return value;
    }

    /* atomic */ int sum(boolean once) { // refused
        return once ? get() : get() + get();
    }

    /* atomic */ int either(boolean first) { // accepted
        return first ? get() : get();
    }
}

@interface GuardedBy {
    String value();
}
