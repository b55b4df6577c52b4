// The list stays inside, but its iterator gets out and removes elements without the lock.
import java.util.ArrayList;
import java.util.Iterator;
import java.util.List;

class IteratorGetsAway {
    @GuardedBy("this") private final List<String> names = new ArrayList<>();

    synchronized Iterator<String> iterator() {
        return names.iterator();
    }

    /* atomic */ synchronized void addOnce(String name) { // refused
        if (!names.contains(name)) {
            names.add(name);
        }
    }
}

@interface GuardedBy {
    String value();
}
