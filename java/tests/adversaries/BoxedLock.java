// Each increment makes another object, so the next one locks another.
class BoxedLock {
    private Integer count = 0;

    /* atomic */ void add() { // refused
        synchronized (count) {
            count++;
        }
    }
}
