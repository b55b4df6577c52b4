// await() itself only waits and then takes. Its caller holds the lock already and has written before: the wait gives that lock away.
class WaitUnderCallersLock {
    @GuardedBy("this") int asked;
    @GuardedBy("this") boolean full;

    synchronized void await() throws InterruptedException {
        while (!full) wait();
        full = false;
    }

    /* atomic */ synchronized void take() throws InterruptedException { // refused
        asked++;
        await();
    }
}

@interface GuardedBy {
    String value();
}
