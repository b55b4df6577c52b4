// The exception's text is made of two reads.
class StepInThrow {
    volatile int left;
    volatile int right;

    /* atomic */ void fail() { // refused
        throw new IllegalStateException(left + " " + right);
    }
}
