// A helper hands the array to a function that runs later.
class ArrayInLambda {
    @GuardedBy("this") private int[] a = new int[3];

    private Runnable later(int[] x) {
        return () -> x[0]++;
    }

    synchronized Runnable share() {
        return later(a);
    }

    /* atomic */ synchronized void f() { // refused
        a[0]++;
        a[0]++;
    }
}

@interface GuardedBy {
    String value();
}
