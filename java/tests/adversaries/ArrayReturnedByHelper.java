// What a private method gives gets out by a method that others call.
class ArrayReturnedByHelper {
    @GuardedBy("this") private int[] a = new int[3];

    private int[] grown() {
        a = new int[9];
        return a;
    }

    synchronized int[] g() {
        return grown();
    }

    /* atomic */ synchronized void f() { // refused
        a[0]++;
        a[0]++;
    }
}

@interface GuardedBy {
    String value();
}
