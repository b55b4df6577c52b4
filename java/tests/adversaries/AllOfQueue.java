// The queue may change while its elements are added, one after the other.
import java.util.*;
import java.util.concurrent.*;

class AllOfQueue {
    private final ConcurrentLinkedQueue<String> all = new ConcurrentLinkedQueue<>();

    void add(String s) {
        all.add(s);
    }

    /* atomic */ List<String> copy() { // refused
        List<String> found = new ArrayList<>();
        found.addAll(all);
        return found;
    }
}
