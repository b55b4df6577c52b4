// The method hands a lambda to an executor. The guard isn't held when it runs.
import java.util.concurrent.Executor;

class LambdaKept {
    @GuardedBy("this") private int done;

    synchronized void submit(Executor executor) {
        executor.execute(() -> done = done + 1); // refused
    }
}

@interface GuardedBy {
    String value();
}
