// `left = right = 3` writes two fields.
class TwoAssignmentsInOne {
    volatile int left;
    volatile int right;

    /* atomic */ void both() { // refused
        left = right = 3;
    }
}
