// A cast doesn't make another object.
class HiddenByCast {
    @GuardedBy("this") private int value;

    /* atomic */ synchronized void set(Object other) { // refused
        ((HiddenByCast) other).value = 1;
    }
}

@interface GuardedBy {
    String value();
}
