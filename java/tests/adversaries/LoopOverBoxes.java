// A loop over boxed counters calls nothing that is seen, but each turn takes the lock once.
class LoopOverBoxes {
    @GuardedBy("this") private int sum;

    private synchronized void add(Integer one) {
        sum += one;
    }

    /* atomic */ void addAll(Integer last) { // refused
        for (Integer one = 0; one < last; one++) {
            add(one);
        }
    }
}

@interface GuardedBy {
    String value();
}
