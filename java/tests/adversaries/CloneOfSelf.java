// A copy has the same array, and another lock.
class CloneOfSelf implements Cloneable {
    @GuardedBy("this") private int[] a = new int[3];

    public synchronized Object clone() throws CloneNotSupportedException {
        return super.clone();
    }

    /* atomic */ synchronized void f() { // refused
        a[0]++;
        a[0]++;
    }
}

@interface GuardedBy {
    String value();
}
