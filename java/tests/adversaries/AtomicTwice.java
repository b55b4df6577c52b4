// get() and set() are a step each.
import java.util.concurrent.atomic.AtomicInteger;

class AtomicTwice {
    private final AtomicInteger count = new AtomicInteger();

    /* atomic */ void add() { // refused
        count.set(count.get() + 1);
    }

    /* atomic */ int addOnce() { // accepted
        return count.incrementAndGet();
    }
}
