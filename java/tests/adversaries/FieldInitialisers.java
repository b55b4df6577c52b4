// The field's initialiser runs at each `new`, and has two steps.
class FieldInitialisers {
    private static volatile int made;
    private final int number = made++;

    /* atomic */ static FieldInitialisers make() { // refused
        return new FieldInitialisers();
    }
}
