package atomic.java.driver;

import atomic.java.options.Options;
import atomic.java.options.Refusal;

/** Work that is done on a thread of its own, with a stack of this size. */
final class Beside {
    private final Thread thread;
    private Throwable fault;

    /** Begins the work. */
    Beside(Runnable work, long stack) {
        thread = new Thread(null, () -> {
            try {
                work.run();
            } catch (RuntimeException | Error found) {
                fault = found;
            }
        }, "atomic-java-beside", stack);
        thread.setDaemon(true);
        thread.start();
    }

    /** Waits for the work, and fails as it did. */
    void join() {
        try {
            thread.join();
        } catch (InterruptedException found) {
            throw new Refusal(Options.NO_CHECKER, "interrupted while the skeleton was written");
        }
        if (fault instanceof Error error) {
            throw error;
        } else if (fault instanceof RuntimeException refused) {
            throw refused;
        }
    }
}
