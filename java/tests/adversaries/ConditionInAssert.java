// The condition of assert is looked at where assertions are on.
class ConditionInAssert {
    volatile int left;
    volatile int right;

    /* atomic */ int get() { // refused
        assert left > 0;
        return right;
    }
}
