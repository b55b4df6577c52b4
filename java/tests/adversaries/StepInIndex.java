// An index, a length of a new array and an initialiser of an array run too.
class StepInIndex {
    volatile int at;
    volatile int length;

    /* atomic */ int[] make() { // refused
        return new int[] {at, length};
    }

    /* atomic */ int[] sized() { // refused
        return new int[at + length];
    }
}
