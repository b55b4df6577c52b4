// Another object's helper is given the array, without this object's lock.
class HelperOfAnother {
    @GuardedBy("this") private int[] a = new int[3];

    private void twice(int[] x) {
        x[0]++;
        x[0]++;
    }

    void cross(HelperOfAnother o) { // refused
        o.twice(a);
    }

    /* atomic */ synchronized void f() { // accepted
        a[0]++;
        a[0]++;
    }
}

@interface GuardedBy {
    String value();
}
