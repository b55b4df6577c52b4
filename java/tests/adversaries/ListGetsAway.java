// A caller of names() changes the list without the lock.
import java.util.ArrayList;
import java.util.List;

class ListGetsAway {
    @GuardedBy("this") private final List<String> names = new ArrayList<>();

    synchronized List<String> names() {
        return names;
    }

    /* atomic */ synchronized void addTwice(String name) { // refused
        if (!names.contains(name)) {
            names.add(name);
        }
    }
}

@interface GuardedBy {
    String value();
}
