// To sort a list calls compareTo of its elements.
import java.util.*;

class SortsObjects implements Comparable<SortsObjects> {
    @GuardedBy("this") private int v;

    public synchronized int compareTo(SortsObjects o) {
        return v;
    }

    synchronized void inc() {
        v++;
    }

    /* atomic */ static void f(List<SortsObjects> p) { // refused
        Collections.sort(p);
    }
}

@interface GuardedBy {
    String value();
}
