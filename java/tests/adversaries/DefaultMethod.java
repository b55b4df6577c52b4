// The body of the interface's method is used, and it calls twice.
interface Counting {
    int next();

    default int two() {
        return next() + next();
    }
}

class DefaultMethod implements Counting {
    @GuardedBy("this") private int count;

    @Override
    public synchronized int next() {
        return count++;
    }

    /* atomic */ int both() { // refused
        return two();
    }
}

@interface GuardedBy {
    String value();
}
