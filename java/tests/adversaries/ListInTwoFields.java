// The list is fresh, but two fields with two guards lead to it.
import java.util.ArrayList;
import java.util.List;

class ListInTwoFields {
    private final Object other = new Object();
    @GuardedBy("this") private final List<String> names = new ArrayList<>();
    @GuardedBy("other") private final List<String> same = names;

    void clear() {
        synchronized (other) {
            same.clear();
        }
    }

    /* atomic */ synchronized void addOnce(String name) { // refused
        if (!names.contains(name)) {
            names.add(name);
        }
    }
}

@interface GuardedBy {
    String value();
}
