// The list's text calls toString of each element.
import java.util.*;

class TextOfList {
    @GuardedBy("this") private int v;

    public synchronized String toString() {
        return "" + v;
    }

    synchronized void inc() {
        v++;
    }

    /* atomic */ static String f(List<TextOfList> p) { // refused
        return p.toString();
    }
}

@interface GuardedBy {
    String value();
}
