// The list is the caller's, who may go on changing it.
import java.util.List;

class ListComesIn {
    @GuardedBy("this") private final List<String> names;

    ListComesIn(List<String> names) {
        this.names = names;
    }

    /* atomic */ synchronized void addOnce(String name) { // refused
        if (!names.contains(name)) {
            names.add(name);
        }
    }
}

@interface GuardedBy {
    String value();
}
