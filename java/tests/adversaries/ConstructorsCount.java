// Each `new` counts in a static field.
class ConstructorsCount {
    private static volatile int made;
    private final int number;

    ConstructorsCount() {
        number = made;
        made = number + 1;
    }

    /* atomic */ static ConstructorsCount make() { // refused
        return new ConstructorsCount();
    }
}
