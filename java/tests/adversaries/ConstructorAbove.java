// The constructor of the class above runs first.
class ConstructorAbove extends Counted {
    /* atomic */ static ConstructorAbove make() { // refused
        return new ConstructorAbove();
    }
}

class Counted {
    private static volatile int made;

    Counted() {
        int before = made;
        made = before + 1;
    }
}
