// Inside the inner class `lock` is its own field, and `total` is the outer object's.
class ShadowedLock {
    private final Object lock = new Object();
    @GuardedBy("lock") private int total;

    class Part {
        private final Object lock = new Object();

        /* atomic */ void add() { // refused
            synchronized (lock) {
                total++;
            }
        }

        /* atomic */ void addLocked() { // accepted
            synchronized (ShadowedLock.this.lock) {
                total++;
            }
        }
    }
}

@interface GuardedBy {
    String value();
}
