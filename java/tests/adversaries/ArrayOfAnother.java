// The array of another object is that object's, and guarded by its lock.
class ArrayOfAnother {
    @GuardedBy("this") private int[] a = new int[3];

    synchronized void steal(ArrayOfAnother o) { // refused
        a = o.a;
    }

    /* atomic */ synchronized void f() { // refused
        a[0]++;
        a[0]++;
    }
}

@interface GuardedBy {
    String value();
}
