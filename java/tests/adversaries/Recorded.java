// A component of a record is final, and the array in it isn't guarded.
record Recorded(int[] values) {
    /* atomic */ void swap() { // refused
        int first = values[0];
        values[0] = values[1];
        values[1] = first;
    }
}
