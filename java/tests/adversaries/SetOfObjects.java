// A new set calls hashCode and equals of the elements that it begins with.
import java.util.*;

class SetOfObjects {
    @GuardedBy("this") private int v;

    public synchronized boolean equals(Object o) {
        return v == 1;
    }

    public synchronized int hashCode() {
        return v;
    }

    synchronized void inc() {
        v++;
    }

    /* atomic */ static void f(List<SetOfObjects> p) { // refused
        new HashSet<>(p);
    }
}

@interface GuardedBy {
    String value();
}
