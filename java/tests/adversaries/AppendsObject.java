// append calls toString, which takes the object's lock each time.
class AppendsObject {
    @GuardedBy("this") private int v;

    public synchronized String toString() {
        return "" + v;
    }

    synchronized void inc() {
        v++;
    }

    /* atomic */ static String f(AppendsObject p) { // refused
        StringBuilder b = new StringBuilder();
        b.append(p).append(p);
        return b.toString();
    }
}

@interface GuardedBy {
    String value();
}
