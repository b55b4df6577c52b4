// What a reference holds never changes only where nobody puts anything else in.
import java.util.ArrayList;
import java.util.List;
import java.util.concurrent.atomic.AtomicReference;

class ImmutableReferences {
    private final AtomicReference<List<String>> fixed = new AtomicReference<>(List.of());
    private final AtomicReference<List<String>> set = new AtomicReference<>(List.of());
    private final AtomicReference<List<String>> updated = new AtomicReference<>(List.of());
    private final AtomicReference<List<String>> compared = new AtomicReference<>(List.of());
    private final AtomicReference<List<String>> given = new AtomicReference<>(List.of());
    private final AtomicReference<List<String>> begun;
    private final AtomicReference<List<String>> one = new AtomicReference<>(List.of());
    private final AtomicReference<List<String>> two = new AtomicReference<>(List.of());
    private final AtomicReference<List<String>> counted = new AtomicReference<>(List.of());
    final AtomicReference<List<String>> open = new AtomicReference<>(List.of());

    ImmutableReferences(List<String> names) {
        begun = new AtomicReference<>(names);
    }

    AtomicReference<List<String>> given() {
        return given;
    }

    void put(List<String> names) {
        set.set(names);
        updated.updateAndGet(old -> new ArrayList<>(old));
        compared.compareAndSet(compared.get(), names);
        one.set(two.get());
        two.set(one.get());
        two.set(names);
        counted.accumulateAndGet(names, (left, right) -> right);
    }

    void add(String name) {
        List<String> next = new ArrayList<>(fixed.get());
        next.add(name);
        fixed.set(List.copyOf(next));
    }

    /* atomic */ int sizes() { // accepted
        List<String> now = fixed.get();
        return now.size() + now.indexOf("a") + String.join("", now).length();
    }

    /* atomic */ int ofTwoLooks() { // refused
        return fixed.get().size() + fixed.get().size();
    }

    /* atomic */ int ofSet() { // refused
        List<String> now = set.get();
        return now.size() + now.size();
    }

    /* atomic */ int ofUpdated() { // refused
        List<String> now = updated.get();
        return now.size() + now.size();
    }

    /* atomic */ int ofCompared() { // refused
        List<String> now = compared.get();
        return now.size() + now.size();
    }

    /* atomic */ int ofGiven() { // refused
        List<String> now = given.get();
        return now.size() + now.size();
    }

    /* atomic */ int ofBegun() { // refused
        List<String> now = begun.get();
        return now.size() + now.size();
    }

    /* atomic */ int ofOne() { // refused
        List<String> now = one.get();
        return now.size() + now.size();
    }

    /* atomic */ int ofCounted() { // refused
        List<String> now = counted.get();
        return now.size() + now.size();
    }

    /* atomic */ int ofOpen() { // refused
        List<String> now = open.get();
        return now.size() + now.size();
    }

    /* atomic */ int ofEither(List<String> names) { // refused
        List<String> now = fixed.get();
        if (names != null) {
            now = set.get();
        }
        return now.size() + now.size();
    }
}
