// The map stays inside, but the cells that it holds are the callers' too.
import java.util.HashMap;
import java.util.Map;

class ValueOfMap {
    static class Count {
        volatile int value;
    }

    @GuardedBy("this") private final Map<String, Count> counts = new HashMap<>();

    synchronized Count get(String name) {
        return counts.computeIfAbsent(name, unused -> new Count());
    }

    /* atomic */ synchronized void add(String name) { // refused
        Count count = counts.get(name);
        count.value = count.value + 1;
    }
}

@interface GuardedBy {
    String value();
}
