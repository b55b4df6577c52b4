// What a method gives may be known to others already.
class FreshFromFactory {
    volatile int left;
    volatile int right;
    private static final FreshFromFactory ONLY = new FreshFromFactory();

    private static FreshFromFactory get() {
        return ONLY;
    }

    /* atomic */ static void set() { // refused
        FreshFromFactory found = get();
        found.left = 1;
        found.right = 2;
    }
}
