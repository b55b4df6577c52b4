// The outer array stays inside; the row gets out.
class ArrayOfArrays {
    @GuardedBy("this") private final int[][] rows = new int[2][2];

    synchronized int[] row(int at) {
        return rows[at];
    }

    /* atomic */ synchronized int twice() { // refused
        rows[0][0]++;
        return rows[0][0];
    }
}

@interface GuardedBy {
    String value();
}
