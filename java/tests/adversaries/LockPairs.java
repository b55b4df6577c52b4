// Two locks in an order that is found first count under the names of the objects only where both are surely locked.
// judged with: --infer
class LockPairs {
    private final int number;
    private long cents;

    LockPairs(int number) {
        this.number = number;
    }

    synchronized void add(long amount) {
        cents += amount;
    }

    /* atomic */ static void move(LockPairs from, LockPairs to) { // accepted
        LockPairs first = from.number < to.number ? from : to;
        LockPairs second = first == from ? to : from;
        synchronized (first) {
            synchronized (second) {
                from.cents--;
                to.cents++;
            }
        }
    }

    /* atomic */ static void moveBack(LockPairs from, LockPairs to) { // accepted
        final LockPairs first = from.number < to.number ? from : to;
        final LockPairs second = to != first ? to : from;
        synchronized (second) {
            synchronized (first) {
                from.cents++;
                to.cents--;
            }
        }
    }
}

class LockedTwice {
    private long cents;

    synchronized void add(long amount) {
        cents += amount;
    }

    /* atomic */ static void move(LockedTwice from, LockedTwice to, boolean turned) { // refused: it may be the same one twice
        LockedTwice first = turned ? from : to;
        LockedTwice second = first == from ? from : to;
        synchronized (first) {
            synchronized (second) {
                from.cents--;
                to.cents++;
            }
        }
    }
}

class LockedThird {
    private long cents;

    synchronized void add(long amount) {
        cents += amount;
    }

    /* atomic */ static void move(LockedThird from, LockedThird to, LockedThird third) { // refused: the other one isn't locked
        LockedThird first = from.cents < 0 ? from : to;
        LockedThird second = first == from ? to : third;
        synchronized (first) {
            synchronized (second) {
                from.cents--;
                to.cents++;
            }
        }
    }
}

class LockedInSteps {
    private final int number;
    private long cents;

    LockedInSteps(int number) {
        this.number = number;
    }

    synchronized void add(long amount) {
        cents += amount;
    }

    /* atomic */ static void move(LockedInSteps from, LockedInSteps to) { // refused: something is done under one lock alone
        LockedInSteps first = from.number < to.number ? from : to;
        LockedInSteps second = first == from ? to : from;
        synchronized (first) {
            from.cents--;
            synchronized (second) {
                to.cents++;
            }
        }
    }
}
