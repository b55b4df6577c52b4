// Of two collections, one that never changes and one that does, what is made may be the other one.
import java.util.ArrayList;
import java.util.List;
import java.util.concurrent.atomic.AtomicReference;

class EitherMade {
    private final List<String> names = Boolean.getBoolean("fixed") ? List.of() : new ArrayList<>();
    private final List<String> fixed = Boolean.getBoolean("fixed") ? List.of() : List.of("a");
    private final AtomicReference<List<String>> all = new AtomicReference<>(List.of());

    void put(boolean empty, List<String> given) {
        all.set(empty ? List.of() : new ArrayList<>(given));
    }

    /* atomic */ void twice(String name) { // refused
        names.add(name);
        names.add(name);
    }

    /* atomic */ int sizes() { // accepted
        return fixed.size() + fixed.size();
    }

    /* atomic */ int ofReference() { // refused
        List<String> now = all.get();
        return now.size() + now.size();
    }
}
