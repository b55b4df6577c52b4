// So does the condition of a loop or a switch, and the update of a for.
class StepInCondition {
    volatile int at;

    /* atomic */ void count() { // refused
        for (int turn = 0; turn < 3; turn += at) {
        }
    }

    /* atomic */ int pick() { // refused
        switch (at) {
            case 0:
                return at;
            default:
                return 1;
        }
    }
}
