// The argument is copied under its own lock, and then added under another.
import java.util.*;

class VectorOfVector {
    private final Vector<String> all = new Vector<>();

    /* atomic */ void add(Vector<String> more) { // refused
        all.addAll(more);
    }
}
