// contains() calls equals() of this class, which takes the lock of each element.
import java.util.List;

class EqualsOfClassAtHand {
    @GuardedBy("this") private int value;

    synchronized int value() {
        return value;
    }

    @Override
    public boolean equals(Object given) {
        return given instanceof EqualsOfClassAtHand other && value() == other.value();
    }

    @Override
    public int hashCode() {
        return 1;
    }

    /* atomic */ boolean isSame(EqualsOfClassAtHand other) { // refused
        return equals(other);
    }
}

@interface GuardedBy {
    String value();
}
