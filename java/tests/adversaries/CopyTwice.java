// Each of the two collections is copied in a step of its own.
import java.util.*;

class CopyTwice {
    private final Vector<String> all = new Vector<>();
    private final Vector<String> others = new Vector<>();

    void add(String s) {
        all.add(s);
        others.add(s);
    }

    /* atomic */ List<String> copy() { // refused
        List<String> found = new ArrayList<>(all);
        found.addAll(others);
        return found;
    }
}
