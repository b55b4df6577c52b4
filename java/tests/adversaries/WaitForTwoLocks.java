// wait() gives one lock away and keeps the other; between the two loops of one region others come in.
class WaitForTwoLocks {
    final Object door = new Object();
    @GuardedBy("door") int visitors;
    @GuardedBy("this") boolean open;

    /* atomic */ void enter() throws InterruptedException { // refused
        synchronized (door) {
            visitors++;
            synchronized (this) {
                while (!open) wait();
            }
            visitors++;
        }
        synchronized (door) {
            visitors++;
        }
    }
}

@interface GuardedBy {
    String value();
}
