// Each call of the map is one step, and the two of them aren't.
import java.util.concurrent.ConcurrentHashMap;

class CheckThenAct {
    private final ConcurrentHashMap<String, Integer> ages = new ConcurrentHashMap<>();

    /* atomic */ void add(String name, int age) { // refused
        if (!ages.containsKey(name)) {
            ages.put(name, age);
        }
    }

    /* atomic */ void addOnce(String name, int age) { // accepted
        ages.putIfAbsent(name, age);
    }
}
