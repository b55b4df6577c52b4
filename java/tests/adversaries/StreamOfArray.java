// A stream of an array walks over it when it is run.
// judged with: --infer
import java.util.stream.*;

class StreamOfArray {
    private final int[] numbers = new int[2];
    private final Integer[] boxes = new Integer[2];
    private final int[] own = new int[2];

    synchronized IntStream numbers() {
        return IntStream.of(numbers);
    }

    synchronized Stream<Integer> boxes() {
        return Stream.of(boxes);
    }

    /* atomic */ synchronized void setNumbers() { // refused
        numbers[0] = 1;
        numbers[1] = 2;
    }

    /* atomic */ synchronized void setBoxes() { // refused
        boxes[0] = 1;
        boxes[1] = 2;
    }

    /* atomic */ synchronized int sum() { // accepted
        own[0] = IntStream.of(1, 2).sum();
        own[1] = 2;
        return own[0];
    }
}
