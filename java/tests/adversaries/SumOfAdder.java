// A sum of several cells is one step only where the counter goes up, and by one each time.
import java.util.concurrent.atomic.LongAdder;

class SumOfAdder {
    private final LongAdder ones = new LongAdder();
    private final LongAdder many = new LongAdder();
    private final LongAdder down = new LongAdder();
    private final LongAdder reset = new LongAdder();
    private final LongAdder given = new LongAdder();
    private final LongAdder floating = new LongAdder();
    private final LongAdder brought;
    final LongAdder open = new LongAdder();

    SumOfAdder(LongAdder brought) {
        this.brought = brought;
    }

    void count(int more) {
        ones.increment();
        many.increment();
        many.add(more);
        down.increment();
        down.decrement();
        reset.increment();
        reset.reset();
        given.increment();
        floating.increment();
        brought.increment();
        open.increment();
    }

    LongAdder given() {
        return given;
    }

    /* atomic */ long ones() { // accepted
        return ones.sum();
    }

    /* atomic */ int value() { // accepted
        return ones.intValue();
    }

    /* atomic */ long twice() { // refused
        return ones.sum() - ones.sum();
    }

    /* atomic */ long many() { // refused
        return many.sum();
    }

    /* atomic */ long down() { // refused
        return down.sum();
    }

    /* atomic */ long begunAnew() { // refused
        return reset.sum();
    }

    /* atomic */ long knownToOthers() { // refused
        return given.sum();
    }

    /* atomic */ long brought() { // refused
        return brought.sum();
    }

    /* atomic */ long open() { // refused
        return open.sum();
    }

    /* atomic */ double asDouble() { // refused
        return floating.doubleValue();
    }
}
