// updateAndGet calls the function again where another thread came first, and the function takes a lock.
import java.util.concurrent.atomic.AtomicInteger;

class UpdateFunction {
    private final AtomicInteger count = new AtomicInteger();
    @GuardedBy("this") private int calls;

    private synchronized int called(int given) {
        calls++;
        return given + 1;
    }

    /* atomic */ int add() { // refused
        return count.updateAndGet(this::called);
    }
}

@interface GuardedBy {
    String value();
}
