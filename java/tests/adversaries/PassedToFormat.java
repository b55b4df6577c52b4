// The list is printed by String.format, which calls its toString without the lock.
import java.util.ArrayList;
import java.util.List;

class PassedToFormat {
    @GuardedBy("this") private final List<Integer> numbers = new ArrayList<>();

    synchronized void add(int number) {
        numbers.add(number);
    }

    /* atomic */ String show() { // refused
        return String.format("%s and once more %s", numbers, numbers);
    }
}

@interface GuardedBy {
    String value();
}
