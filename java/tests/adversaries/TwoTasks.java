// Each task is one step that others can see: they may see the first without the second.
import java.util.concurrent.ExecutorService;

class TwoTasks {
    volatile int done;

    /* atomic */ void one(ExecutorService given) { // accepted
        given.execute(() -> done = 1);
    }

    /* atomic */ void two(ExecutorService given) { // refused
        given.execute(() -> done = 1);
        given.execute(() -> done = 2);
    }

    /* atomic */ void waits(ExecutorService given) throws Exception { // refused
        given.submit(() -> done = 1).get();
    }
}
