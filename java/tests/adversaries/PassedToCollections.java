// Collections.max looks at all elements, and the lock isn't held.
import java.util.ArrayList;
import java.util.Collections;
import java.util.List;

class PassedToCollections {
    @GuardedBy("this") private final List<Integer> numbers = new ArrayList<>();

    synchronized void add(int number) {
        numbers.add(number);
    }

    /* atomic */ int range() { // refused
        return Collections.max(numbers) - Collections.min(numbers);
    }
}

@interface GuardedBy {
    String value();
}
