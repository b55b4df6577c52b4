// Objects calls equals and hashCode of its arguments.
import java.util.*;

class EqualsByObjects {
    @GuardedBy("this") private int v;

    public synchronized boolean equals(Object o) {
        return v == 1;
    }

    public synchronized int hashCode() {
        return v;
    }

    synchronized void inc() {
        v++;
    }

    /* atomic */ static boolean f(EqualsByObjects p) { // refused
        return Objects.equals(p, "a") && Objects.hash(p) == 1;
    }
}

@interface GuardedBy {
    String value();
}
