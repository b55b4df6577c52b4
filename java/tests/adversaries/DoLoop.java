// The body of do runs, and then once more.
class DoLoop {
    @GuardedBy("this") private int left = 3;

    private synchronized boolean takeOne() {
        return --left > 0;
    }

    /* atomic */ void takeAll() { // refused
        do {
        } while (takeOne());
    }
}

@interface GuardedBy {
    String value();
}
