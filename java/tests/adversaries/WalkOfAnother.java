// An inner object may get the array of another object's walk.
class WalkOfAnother {
    @GuardedBy("this") private int[] a = new int[3];

    class Walk {
        private int[] mine = a;
        void take(Walk other) {
            mine = other.mine;
        }
        void put() {
            synchronized (WalkOfAnother.this) {
                mine[0]++;
                mine[0]++;
            }
        }
    }

    /* atomic */ synchronized void f() { // refused
        a[0]++;
        a[0]++;
    }
}

@interface GuardedBy {
    String value();
}
