package jvm.plain;

/** The word {@code Thread} of a program that is run plainly. */
public final class Thread {
    private final Runnable target;

    public Thread(Runnable target) {
        this.target = target;
    }

    public void start() {
        jvm.Plain.queue(target);
    }
}
