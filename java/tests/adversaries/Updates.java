// A function that is called again has no effect only where it computes, and nothing else.
import java.util.concurrent.atomic.AtomicInteger;
import java.util.concurrent.atomic.AtomicReference;

class Updates {
    private final AtomicInteger value = new AtomicInteger();
    private final AtomicReference<String> text = new AtomicReference<>("");
    private volatile int seen;

    /* atomic */ int doubled() { // accepted
        return value.updateAndGet(old -> 2 * old);
    }

    /* atomic */ int most(int wanted) { // accepted
        return value.accumulateAndGet(wanted, Math::max);
    }

    /* atomic */ String join(String more) { // accepted
        return text.accumulateAndGet(more, (one, other) -> one.isEmpty() ? other : one + ", " + other);
    }

    /* atomic */ int looks() { // refused: the function looks at another variable
        return value.updateAndGet(old -> old + seen);
    }

    /* atomic */ int counts() { // refused: each call of the function counts
        int[] calls = new int[1];
        value.updateAndGet(old -> old + calls[0]++);
        return calls[0];
    }

    /* atomic */ int writes() { // refused: each call of the function writes
        return value.updateAndGet(old -> {
            seen = old;
            return old + 1;
        });
    }

    /* atomic */ int nested() { // refused: the function takes another step
        return value.updateAndGet(old -> old + value.get());
    }
}
