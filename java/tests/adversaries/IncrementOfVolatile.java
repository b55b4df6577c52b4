// count++ reads and writes, and another thread may come in between.
class IncrementOfVolatile {
    volatile int count;

    /* atomic */ void increment() { // refused
        count++;
    }

    /* atomic */ int get() { // accepted
        return count;
    }
}
