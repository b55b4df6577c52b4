// So does a block of the class.
class InstanceInitialiser {
    private static volatile int made;
    private static volatile int last;

    {
        made = 1;
        last = 2;
    }

    /* atomic */ static InstanceInitialiser make() { // refused
        return new InstanceInitialiser();
    }
}
