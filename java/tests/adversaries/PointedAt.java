// A cleaner and a phantom reference give nobody the object that they point at; a weak reference gives it, and the task is kept.
// judged with: --infer
import java.lang.ref.*;

class Cleaned {
    static final Cleaner CLEANER = Cleaner.create();
    private final Object lock;
    private int one;
    private int other;

    static class Release implements Runnable {
        @Override
        public void run() { }
    }

    Cleaned() {
        CLEANER.register(this, new Release());
        lock = new Object();
    }

    /* atomic */ int sum() { // accepted
        synchronized (lock) {
            return one + other;
        }
    }

    /* atomic */ void move() { // accepted
        synchronized (lock) {
            one--;
            other++;
        }
    }
}

class CleanedByHandle {
    private final Handle handle;
    private int one;
    private int other;

    static class Handle implements Runnable {
        private final Cleaner.Cleanable cleanable;

        Handle(CleanedByHandle owner) {
            cleanable = owner != null ? Cleaned.CLEANER.register(owner, this) : null;
        }

        @Override
        public void run() { }
    }

    CleanedByHandle() {
        handle = new Handle(this);
    }

    /* atomic */ int sum() { // accepted
        synchronized (handle) {
            return one + other;
        }
    }

    /* atomic */ void move() { // accepted
        synchronized (handle) {
            one--;
            other++;
        }
    }
}

class PointedByPhantom {
    static volatile Reference<PointedByPhantom> last;
    private final Object lock;
    private int one;
    private int other;

    PointedByPhantom(ReferenceQueue<PointedByPhantom> queue) {
        last = new PhantomReference<>(this, queue);
        lock = new Object();
    }

    /* atomic */ int sum() { // accepted
        synchronized (lock) {
            return one + other;
        }
    }

    /* atomic */ void move() { // accepted
        synchronized (lock) {
            one--;
            other++;
        }
    }
}

class PointedByWeak {
    static volatile Reference<PointedByWeak> last;
    private final Object lock;
    private int one;
    private int other;

    PointedByWeak() {
        last = new WeakReference<>(this);
        lock = new Object();
    }

    /* atomic */ int sum() { // refused: who asks the reference may get the object before it has its lock
        synchronized (lock) {
            return one + other;
        }
    }

    /* atomic */ void move() { // refused
        synchronized (lock) {
            one--;
            other++;
        }
    }
}

class CleanedByItself {
    private final Object lock;
    private int one;
    private int other;

    CleanedByItself() {
        Cleaned.CLEANER.register(new Object(), this::move);
        lock = new Object();
    }

    /* atomic */ int sum() { // refused: the task knows the object, and runs in another thread
        synchronized (lock) {
            return one + other;
        }
    }

    /* atomic */ void move() { // refused
        synchronized (lock) {
            one--;
            other++;
        }
    }
}

class CleanedAndKept {
    private final Keeper keeper;
    private int one;
    private int other;

    static class Keeper implements Runnable {
        static volatile CleanedAndKept last;

        Keeper(CleanedAndKept owner) {
            Cleaned.CLEANER.register(owner, this);
            last = owner;
        }

        @Override
        public void run() { }
    }

    CleanedAndKept() {
        keeper = new Keeper(this);
    }

    /* atomic */ int sum() { // refused: the constructor of the other object keeps this one too
        synchronized (keeper) {
            return one + other;
        }
    }

    /* atomic */ void move() { // refused
        synchronized (keeper) {
            one--;
            other++;
        }
    }
}

class PointedByRecord {
    static volatile Holder last;
    private final Object lock;
    private int one;
    private int other;

    record Holder(PointedByRecord held) {
        Holder {
            Cleaned.CLEANER.register(held, new Cleaned.Release());
        }
    }

    PointedByRecord() {
        last = new Holder(this);
        lock = new Object();
    }

    /* atomic */ int sum() { // refused: what a record is made of is a part of it
        synchronized (lock) {
            return one + other;
        }
    }

    /* atomic */ void move() { // refused
        synchronized (lock) {
            one--;
            other++;
        }
    }
}
