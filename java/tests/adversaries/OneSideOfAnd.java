// The right side of && runs too, where the left one is true.
class OneSideOfAnd {
    @GuardedBy("this") private int value;

    private synchronized boolean isPositive() {
        return value > 0;
    }

    private synchronized boolean isSmall() {
        return value < 10;
    }

    /* atomic */ boolean isDigit() { // refused
        return isPositive() && isSmall();
    }
}

@interface GuardedBy {
    String value();
}
