// The loop is empty, but in front of it stands a step outside the lock.
class WaitReadsOutside {
    volatile int wanted;
    @GuardedBy("this") boolean full;

    /* atomic */ int take() throws InterruptedException { // refused
        int mine = wanted;
        wanted = mine + 1;
        synchronized (this) {
            while (!full) wait();
            full = false;
        }
        return mine;
    }
}

@interface GuardedBy {
    String value();
}
