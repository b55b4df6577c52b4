// subList is a view: who has it writes into the list.
import java.util.ArrayList;
import java.util.List;

class ViewGetsAway {
    @GuardedBy("this") private final List<String> names = new ArrayList<>();

    synchronized List<String> firstTwo() {
        return names.subList(0, 2);
    }

    /* atomic */ synchronized void addOnce(String name) { // refused
        if (!names.contains(name)) {
            names.add(name);
        }
    }
}

@interface GuardedBy {
    String value();
}
