// The first look is without the lock, and the field may be taken back between it and the next one.
class DoubleChecked {
    private volatile DoubleChecked instance;

    /* atomic */ DoubleChecked get() { // refused
        if (instance == null) {
            synchronized (this) {
                if (instance == null) instance = new DoubleChecked();
            }
        }
        return instance;
    }

    synchronized void reset() {
        instance = null;
    }
}
