// Between the two starts the first thread may run.
class StartsTwo {
    /* atomic */ void start(Thread left, Thread right) { // refused
        left.start();
        right.start();
    }
}
