// `other` is another object, under a name that the pattern makes.
class PatternOfInstanceof {
    @GuardedBy("this") private int value;

    @Override
    /* atomic */ public synchronized boolean equals(Object given) { // refused
        return given instanceof PatternOfInstanceof other && value == other.value;
    }

    @Override
    public int hashCode() {
        return 1;
    }
}

@interface GuardedBy {
    String value();
}
