// The first wait stands where nothing came before. The second one comes behind a write.
class SecondWait {
    @GuardedBy("this") boolean full;
    @GuardedBy("this") boolean ready;

    /* atomic */ synchronized void exchange() throws InterruptedException { // refused
        while (!full) wait();
        full = false;
        while (!ready) wait();
        ready = false;
    }
}

@interface GuardedBy {
    String value();
}
