// The same with ||.
class OneSideOfOr {
    volatile boolean left;
    volatile boolean right;

    /* atomic */ boolean any() { // refused
        return left || right;
    }
}
