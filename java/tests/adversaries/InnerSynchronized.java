// A synchronized method of an inner class locks the inner object.
class InnerSynchronized {
    @GuardedBy("this") private int total;

    class Part {
        /* atomic */ synchronized void add() { // refused
            total++;
        }
    }
}

@interface GuardedBy {
    String value();
}
