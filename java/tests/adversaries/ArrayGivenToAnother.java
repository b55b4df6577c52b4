// Two objects have one array, and each its own lock.
class ArrayGivenToAnother {
    @GuardedBy("this") private int[] a = new int[3];

    synchronized void give(ArrayGivenToAnother o) {
        o.a = this.a;
    }

    /* atomic */ synchronized void f() { // refused
        a[0]++;
        a[0]++;
    }
}

@interface GuardedBy {
    String value();
}
