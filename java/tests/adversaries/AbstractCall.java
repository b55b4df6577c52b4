// One of the two implementations has two regions.
abstract class AbstractCall {
    abstract void step();

    /* atomic */ void run() { // refused
        step();
    }
}

class OneRegion extends AbstractCall {
    @GuardedBy("this") private int count;

    @Override
    synchronized void step() {
        count++;
    }
}

class TwoRegions extends AbstractCall {
    @GuardedBy("this") private int count;

    @Override
    void step() {
        synchronized (this) {
            count++;
        }
        synchronized (this) {
            count++;
        }
    }
}

@interface GuardedBy {
    String value();
}
