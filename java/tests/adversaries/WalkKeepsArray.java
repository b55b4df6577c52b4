// An inner object has the array too, and looks at it without the lock.
class WalkKeepsArray {
    @GuardedBy("this") private int[] a = new int[3];

    synchronized Walk walk() {
        return new Walk();
    }

    class Walk {
        private final int[] mine = a;

        int next() { // refused
            return mine[0] + mine[1];
        }
    }

    /* atomic */ synchronized void f() { // accepted
        a[0]++;
        a[0]++;
    }

    /* atomic */ synchronized int g() { // accepted
        return a[0] + a[1];
    }
}

@interface GuardedBy {
    String value();
}
