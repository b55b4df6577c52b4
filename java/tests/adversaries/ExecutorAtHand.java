// The executor of these sources runs each task at once, in the thread that gives it: what the task does is part of the call.
import java.util.List;
import java.util.concurrent.AbstractExecutorService;
import java.util.concurrent.ExecutorService;
import java.util.concurrent.TimeUnit;

class ExecutorAtHand extends AbstractExecutorService {
    volatile int left;
    volatile int right;

    public void execute(Runnable task) {
        task.run();
    }

    /* atomic */ void both(ExecutorService given) { // refused
        given.execute(() -> {
            left = 1;
            right = 1;
        });
    }

    public void shutdown() {
    }

    public List<Runnable> shutdownNow() {
        return List.of();
    }

    public boolean isShutdown() {
        return false;
    }

    public boolean isTerminated() {
        return false;
    }

    public boolean awaitTermination(long time, TimeUnit unit) {
        return true;
    }
}
