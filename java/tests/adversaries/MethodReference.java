// As in a loop with a lambda: this::add is called once for each element.
import java.util.List;

class MethodReference {
    @GuardedBy("this") private int sum;

    synchronized void add(int one) {
        sum += one;
    }

    /* atomic */ void addAll(List<Integer> numbers) { // refused
        numbers.forEach(this::add);
    }
}

@interface GuardedBy {
    String value();
}
