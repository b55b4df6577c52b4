// An array that a method has just made is its caller's own; one that it keeps, or may keep, isn't.
class ArrayFromMethod {
    private final int[] kept = new int[2];
    private volatile int[] last;

    private int[] made() {
        int[] all = new int[2];
        all[0] = 1;
        return all;
    }

    private int[] sometimes(boolean fresh) {
        return fresh ? new int[2] : kept;
    }

    private int[] shown() {
        int[] all = new int[2];
        last = all;
        return all;
    }

    int[] open() {
        return new int[2];
    }

    /* atomic */ int sum() { // accepted
        int sum = 0;
        for (int each : made()) {
            sum += each;
        }
        return sum;
    }

    /* atomic */ int perhaps(boolean fresh) { // refused: it may be the one that is kept
        int[] all = sometimes(fresh);
        return all[0] + all[1];
    }

    /* atomic */ int known() { // refused: others know it by now
        int[] all = shown();
        return all[0] + all[1];
    }

    /* atomic */ int overridden() { // refused: the class below gives one that it keeps
        int[] all = open();
        return all[0] + all[1];
    }

    void change() {
        kept[0]++;
        last[0]++;
    }
}

class ArrayFromHeir extends ArrayFromMethod {
    private final int[] same = new int[2];

    @Override
    int[] open() {
        return same;
    }

    void changeSame() {
        same[0]++;
    }
}
