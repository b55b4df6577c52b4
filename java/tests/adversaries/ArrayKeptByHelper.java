// A private method keeps the array that it is given in another field.
class ArrayKeptByHelper {
    @GuardedBy("this") private int[] a = new int[3];
    private int[] kept;

    private void keep(int[] x) {
        kept = x;
    }

    synchronized void share() {
        keep(a);
    }

    void g() {
        kept[0]++;
    }

    /* atomic */ synchronized void f() { // refused
        a[0]++;
        a[0]++;
    }
}

@interface GuardedBy {
    String value();
}
