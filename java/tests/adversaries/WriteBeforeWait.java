// Looks atomic: all of it stands under one lock. But wait() gives the lock away in the middle,
// and what was written before it is seen by others.
class WriteBeforeWait {
    @GuardedBy("this") int asked;
    @GuardedBy("this") boolean full;

    /* atomic */ synchronized int take() throws InterruptedException { // refused
        asked++;
        while (!full) wait();
        full = false;
        return asked;
    }

    /* atomic */ synchronized void put() { // accepted
        full = true;
        notifyAll();
    }
}

@interface GuardedBy {
    String value();
}
