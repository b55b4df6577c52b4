// A private constructor gives a second object the same array.
class TwinSharesArray {
    @GuardedBy("this") private final int[] a;

    private TwinSharesArray(int[] a) {
        this.a = a;
    }

    static TwinSharesArray make() {
        return new TwinSharesArray(new int[3]);
    }

    synchronized TwinSharesArray twin() {
        return new TwinSharesArray(a);
    }

    /* atomic */ synchronized void f() { // refused
        a[0]++;
        a[0]++;
    }
}

@interface GuardedBy {
    String value();
}
