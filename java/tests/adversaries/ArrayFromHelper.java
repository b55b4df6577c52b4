// A private method gives an array that others know.
class ArrayFromHelper {
    @GuardedBy("this") private int[] a = make();
    private static int[] shared = new int[3];

    private static int[] make() {
        return shared;
    }

    static void g() {
        shared[0]++;
    }

    /* atomic */ synchronized void f() { // refused
        a[0]++;
        a[0]++;
    }
}

@interface GuardedBy {
    String value();
}
