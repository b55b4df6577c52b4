// The new list is made of what the map holds, and the lock isn't held meanwhile.
import java.util.ArrayList;
import java.util.HashMap;
import java.util.List;
import java.util.Map;

class ViewAsArgument {
    @GuardedBy("this") private final Map<String, Integer> places = new HashMap<>();

    synchronized void put(String name, int place) {
        places.put(name, place);
    }

    /* atomic */ List<String> names() { // refused
        return new ArrayList<>(places.keySet());
    }

    /* atomic */ String joined() { // refused
        return String.join(", ", places.keySet());
    }

    /* atomic */ boolean addTo(List<Integer> given) { // refused
        return given.addAll(places.values());
    }

    /* atomic */ synchronized List<String> namesLocked() { // accepted
        return new ArrayList<>(places.keySet());
    }
}

@interface GuardedBy {
    String value();
}
