// The call means the overload with two regions.
class Overloaded {
    @GuardedBy("this") private int count;

    private synchronized void add(long more) {
        count += (int) more;
    }

    private void add(int more) {
        add((long) more);
        add((long) more);
    }

    /* atomic */ void both() { // refused
        add(1);
    }

    /* atomic */ void once() { // accepted
        add(1L);
    }
}

@interface GuardedBy {
    String value();
}
