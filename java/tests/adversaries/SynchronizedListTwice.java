// The wrapped list locks each call for itself.
import java.util.ArrayList;
import java.util.Collections;
import java.util.List;

class SynchronizedListTwice {
    private final List<String> names = Collections.synchronizedList(new ArrayList<>());

    /* atomic */ void addOnce(String name) { // refused
        if (!names.contains(name)) names.add(name);
    }
}
