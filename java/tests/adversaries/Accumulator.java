// An accumulator is a Number, and changes.
import java.util.concurrent.atomic.LongAccumulator;

class Accumulator {
    private final LongAccumulator most = new LongAccumulator(Long::max, 0);

    /* atomic */ void both(long left, long right) { // refused
        most.accumulate(left);
        most.accumulate(right);
    }
}
