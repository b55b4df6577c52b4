// Two texts that are equal may be one object or two: nobody else's lock is known.
class LockOfString {
    @GuardedBy("this") private int value;

    /* atomic */ void add(String name) { // refused
        synchronized (name.intern()) {
            value++;
        }
    }
}

@interface GuardedBy {
    String value();
}
