// A copy of a vector is one step only where all of it is taken at once; what walks over it may see halves of a change.
// judged with: --infer
import java.util.ArrayDeque;
import java.util.ArrayList;
import java.util.Collections;
import java.util.Deque;
import java.util.HashSet;
import java.util.List;
import java.util.Set;
import java.util.TreeSet;
import java.util.Vector;
import java.util.concurrent.CopyOnWriteArrayList;

class WalksOverVector {
    private final Vector<String> names = new Vector<>();
    private final Vector<String> others = new Vector<>();
    private final CopyOnWriteArrayList<String> copied = new CopyOnWriteArrayList<>();

    void put(int at, String name) {
        names.set(at, name);
        others.set(at, name);
        copied.set(at, name);
    }

    /* atomic */ List<String> list() { // accepted
        return new ArrayList<>(names);
    }

    /* atomic */ List<String> fixed() { // accepted
        return List.copyOf(names);
    }

    /* atomic */ List<String> filled() { // accepted
        List<String> all = new ArrayList<>();
        all.addAll(names);
        return all;
    }

    /* atomic */ Set<String> ofSnapshot() { // accepted
        return new TreeSet<>(copied);
    }

    /* atomic */ Set<String> set() { // refused
        return new HashSet<>(names);
    }

    /* atomic */ Set<String> fixedSet() { // refused
        return Set.copyOf(names);
    }

    /* atomic */ Deque<String> deque() { // refused
        return new ArrayDeque<>(names);
    }

    /* atomic */ Set<String> added() { // refused
        Set<String> all = new HashSet<>();
        all.addAll(names);
        return all;
    }

    /* atomic */ String most() { // refused
        return Collections.max(names);
    }

    /* atomic */ boolean same() { // refused
        return names.equals(others);
    }

    /* atomic */ boolean allOf(List<String> some) { // refused
        return some.containsAll(names);
    }
}
