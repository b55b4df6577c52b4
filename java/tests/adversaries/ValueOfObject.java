// valueOf calls toString, which takes the object's lock each time.
class ValueOfObject {
    @GuardedBy("this") private int v;

    public synchronized String toString() {
        return "" + v;
    }

    synchronized void inc() {
        v++;
    }

    /* atomic */ static String f(ValueOfObject p) { // refused
        return String.valueOf(p) + String.valueOf(p);
    }
}

@interface GuardedBy {
    String value();
}
