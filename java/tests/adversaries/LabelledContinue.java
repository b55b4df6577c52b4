// `continue outer` goes back behind a region.
class LabelledContinue {
    @GuardedBy("this") private int sum;

    private synchronized void add(int one) {
        sum += one;
    }

    /* atomic */ void addSome(int[] numbers) { // refused
        outer:
        for (int one : numbers) {
            while (true) {
                add(one);
                continue outer;
            }
        }
    }
}

@interface GuardedBy {
    String value();
}
