// join may run the task in this thread.
import java.util.concurrent.*;

class ForkedTask extends RecursiveTask<Integer> {
    static volatile int v;

    protected Integer compute() {
        v = v + 1;
        return v;
    }

    /* atomic */ static int f(ForkedTask one) { // refused
        return one.join();
    }
}
