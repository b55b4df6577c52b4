// The lock of the object is given back in the middle by a callee that waits.
class YieldsInside {
    @GuardedBy("this") private int count;
    private final Gate gate = new Gate(this);

    /* atomic */ synchronized void twice() throws InterruptedException { // refused
        count++;
        gate.pass();
        count++;
    }
}

class Gate {
    private final YieldsInside owner;

    Gate(YieldsInside owner) {
        this.owner = owner;
    }

    void pass() throws InterruptedException {
        synchronized (owner) {
            owner.wait(1);
        }
    }
}

@interface GuardedBy {
    String value();
}
