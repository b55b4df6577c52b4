// So does count += 2, also where it stands inside an expression.
class CompoundAssignment {
    volatile int count;

    /* atomic */ int add() { // refused
        return 1 + (count += 2);
    }
}
