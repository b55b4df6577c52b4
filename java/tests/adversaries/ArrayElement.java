// counts[at]++ reads and writes an element that nothing guards.
class ArrayElement {
    private final int[] counts = new int[4];

    /* atomic */ void count(int at) { // refused
        counts[at]++;
    }
}
