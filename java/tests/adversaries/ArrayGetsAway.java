// The array is guarded as a field, but its elements aren't once the caller has it.
class ArrayGetsAway {
    @GuardedBy("this") private final int[] counts = new int[4];

    synchronized int[] counts() {
        return counts;
    }

    /* atomic */ synchronized int twice() { // refused
        counts[0]++;
        return counts[0] + counts[1];
    }
}

@interface GuardedBy {
    String value();
}
