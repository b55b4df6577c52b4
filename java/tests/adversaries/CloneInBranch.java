// The copy gets an array of its own on one way only.
class CloneInBranch implements Cloneable {
    @GuardedBy("this") private int[] a = new int[3];

    public synchronized Object clone() throws CloneNotSupportedException {
        CloneInBranch copy = (CloneInBranch) super.clone();
        if (a[0] > 0) {
            copy.a = a.clone();
        }
        return copy;
    }

    /* atomic */ synchronized void f() { // refused
        a[0]++;
        a[0]++;
    }
}

@interface GuardedBy {
    String value();
}
