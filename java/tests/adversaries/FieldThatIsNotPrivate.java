// Another class writes the field without the lock.
class FieldThatIsNotPrivate {
    @GuardedBy("this") int value;

    /* atomic */ synchronized void twice() { // accepted
        value = value + value;
    }
}

class Elsewhere {
    void clear(FieldThatIsNotPrivate cell) { // refused
        cell.value = 0;
    }
}

@interface GuardedBy {
    String value();
}
