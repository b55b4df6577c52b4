package jvm.steps;

/** The word {@code Thread} of a program that is run step by step. */
public final class Thread {
    private final Runnable target;

    public Thread(Runnable target) {
        this.target = target;
    }

    public void start() {
        jvm.Steps.start(target);
    }
}
