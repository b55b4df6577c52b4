// println calls toString, which takes the object's lock, and then prints.
class PrintsObject {
    @GuardedBy("this") private int v;

    public synchronized String toString() {
        return "" + v;
    }

    synchronized void inc() {
        v++;
    }

    /* atomic */ static void f(PrintsObject p) { // refused
        System.out.println(p);
    }
}

@interface GuardedBy {
    String value();
}
