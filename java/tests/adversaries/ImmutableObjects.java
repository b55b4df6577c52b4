// An object that never changes is looked at without a step; the field that holds it isn't.
// judged with: --infer
import java.util.ArrayList;
import java.util.Collections;
import java.util.HashMap;
import java.util.List;
import java.util.Map;

class ImmutableObjects {
    private volatile Map<String, Long> book = Map.of();
    private volatile List<String> names = List.of();

    /* atomic */ long total() { // accepted
        return book.values().stream().mapToLong(Long::longValue).sum();
    }

    /* atomic */ synchronized void put(String name, long value) { // accepted
        Map<String, Long> next = new HashMap<>(book);
        next.put(name, value);
        book = Map.copyOf(next);
    }

    /* atomic */ long twice() { // refused: two looks at the field
        return book.size() + book.values().stream().mapToLong(Long::longValue).sum();
    }

    /* atomic */ void unlocked(String name) { // refused: another one may come in between
        List<String> next = new ArrayList<>(names);
        next.add(name);
        names = List.copyOf(next);
    }
}

class ImmutablePerhaps {
    private volatile Map<String, Long> book = Map.of();

    void fill(Map<String, Long> given) {
        book = given;
    }

    /* atomic */ long total() { // refused: it may be the caller's map
        return book.values().stream().mapToLong(Long::longValue).sum();
    }
}

class ImmutableView {
    private final Map<String, Long> map = new HashMap<>();
    private volatile Map<String, Long> book = Collections.unmodifiableMap(map);

    synchronized void put(String name, long value) {
        map.put(name, value);
    }

    /* atomic */ long total() { // refused: what is behind the view changes
        return book.values().stream().mapToLong(Long::longValue).sum();
    }
}

class SetsOfMaps {
    private final java.util.Set<String> names = Collections.newSetFromMap(new HashMap<>());
    private final java.util.Set<String> shared;

    SetsOfMaps(Map<String, Boolean> given) {
        shared = Collections.newSetFromMap(given);
    }

    /* atomic */ synchronized boolean add(String name) { // accepted
        return !names.contains(name) && names.add(name);
    }

    /* atomic */ synchronized boolean addShared(String name) { // refused: others have the map
        return !shared.contains(name) && shared.add(name);
    }

    private <T> T locked(java.util.function.Supplier<T> work) {
        synchronized (this) {
            return work.get();
        }
    }

    /* atomic */ int size() { // accepted
        return locked(names::size);
    }
}
