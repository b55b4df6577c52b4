// Each call of the vector's iterator takes the vector's lock and gives it back.
import java.util.Vector;

class IterationOfVector {
    private final Vector<Integer> numbers = new Vector<>();

    /* atomic */ int sum() { // refused
        int sum = 0;
        for (int number : numbers) sum += number;
        return sum;
    }
}
