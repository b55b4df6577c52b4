// this is locked, and the field of the other object is read.
class OtherObjectsField {
    @GuardedBy("this") private int value;

    /* atomic */ synchronized boolean isSame(OtherObjectsField other) { // refused
        return value == other.value;
    }
}

@interface GuardedBy {
    String value();
}
