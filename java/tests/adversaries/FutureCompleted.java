// complete() runs the functions that wait for the result, here and now.
import java.util.concurrent.CompletableFuture;

class FutureCompleted {
    private final CompletableFuture<Integer> result = new CompletableFuture<>();
    volatile int left;
    volatile int right;

    void prepare() {
        result.thenAccept(value -> {
            left = value;
            right = value;
        });
    }

    /* atomic */ void finish(int value) { // refused
        result.complete(value);
    }
}
