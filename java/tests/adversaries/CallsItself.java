// Each turn of the recursion takes the lock once.
class CallsItself {
    @GuardedBy("this") private int sum;

    private synchronized void add(int one) {
        sum += one;
    }

    /* atomic */ void addDown(int from) { // refused
        if (from > 0) {
            add(from);
            addDown(from - 1);
        }
    }
}

@interface GuardedBy {
    String value();
}
