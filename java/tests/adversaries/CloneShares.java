// The copy's array is the first object's array.
class CloneShares implements Cloneable {
    @GuardedBy("this") private int[] a = new int[3];

    /* atomic */ protected synchronized Object clone() throws CloneNotSupportedException { // refused
        CloneShares copy = (CloneShares) super.clone();
        copy.a[0]++;
        return copy;
    }

    /* atomic */ synchronized void f() { // refused
        a[0]++;
        a[0]++;
    }
}

@interface GuardedBy {
    String value();
}
