// A method's name that a helper calls under the lock gives out what the method gives, which may be a view.
// judged with: --infer
import java.util.Iterator;
import java.util.List;
import java.util.ArrayList;
import java.util.Map;
import java.util.Set;
import java.util.TreeMap;
import java.util.function.Supplier;

class ReferenceGivesView {
    private final Map<String, String> names = new TreeMap<>();
    private final Map<String, String> firsts = new TreeMap<>();
    private final Map<String, String> kept = new TreeMap<>();
    private final List<String> walked = new ArrayList<>();

    private synchronized <R> R locked(Supplier<R> work) {
        return work.get();
    }

    Set<String> keys() {
        return locked(names::keySet);
    }

    Map.Entry<String, String> first() {
        return locked(firsts.entrySet().iterator()::next);
    }

    Iterator<String> walk() {
        return locked(walked::iterator);
    }

    int size() {
        return locked(kept::size);
    }

    /* atomic */ synchronized void add(String name) { // refused
        names.put(name, "a");
        names.put(name, "b");
    }

    /* atomic */ synchronized void addFirst(String name) { // refused
        firsts.put(name, "a");
        firsts.put(name, "b");
    }

    /* atomic */ synchronized void addWalked(String name) { // refused
        walked.add(name);
        walked.add(name);
    }

    /* atomic */ synchronized void keep(String name) { // accepted
        kept.put(name, "a");
        kept.put(name, "b");
    }
}
