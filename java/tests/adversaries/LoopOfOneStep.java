// One volatile write is a step. A loop makes it any number of times.
class LoopOfOneStep {
    volatile int at;

    /* atomic */ void count(int last) { // refused
        for (int turn = 0; turn < last; turn++) at = turn;
    }

    /* atomic */ void once() { // accepted
        at = 1;
    }
}
