// A private helper runs the function that it is given where it calls it, and holds what it holds there.
// judged with: --infer
import java.util.concurrent.locks.ReentrantLock;
import java.util.function.IntSupplier;
import javax.annotation.concurrent.GuardedBy;
import java.util.function.Supplier;

class HelperFunctions {
    private final Object lock = new Object();
    private int count;
    private volatile int seen;

    private <T> T locked(Supplier<T> work) {
        synchronized (lock) {
            return work.get();
        }
    }

    private void twice(Runnable work) {
        synchronized (lock) {
            work.run();
        }
        synchronized (lock) {
            work.run();
        }
    }

    private int named(IntSupplier work) {
        return locked(() -> work.getAsInt());
    }

    private int see() {
        seen = count;
        seen = count + 1;
        return count;
    }

    /* atomic */ int count() { // accepted
        return locked(() -> ++count + count);
    }

    /* atomic */ int both() { // refused: two regions
        return locked(() -> count) + locked(() -> count);
    }

    /* atomic */ void runs() { // refused: the helper takes the lock twice
        twice(() -> count++);
    }

    /* atomic */ int steps() { // refused: the function has two steps that others see
        return locked(this::see);
    }

    /* atomic */ int behind() { // refused: the look is behind the region
        int before = locked(() -> count);
        return before + seen;
    }

    /* atomic */ synchronized int other(Supplier<Integer> work) {
        return locked(work);
    }

    /* atomic */ int inner() { // accepted
        return named(() -> count + count);
    }

    private <T> T handed(Supplier<T> work) {
        return locked(work);
    }

    /* atomic */ int handedOn() { // accepted
        return handed(() -> count + count);
    }

    /* atomic */ int handedOnSteps() { // refused: the function has two steps that others see
        return handed(this::see);
    }

    /* atomic */ int within() { // accepted
        return locked(() -> locked(() -> ++count) + locked(() -> count));
    }

    private int again(IntSupplier work, int turns) {
        return turns == 0 ? work.getAsInt() : again(() -> work.getAsInt(), turns - 1);
    }

    /* atomic */ int deep() { // refused: it isn't known how often the helper hands the function on to itself
        return again(() -> locked(() -> count), 2);
    }
}

class HelperThatKeeps {
    private final Object lock = new Object();
    private Runnable last;
    private int count;

    private void locked(Runnable work) {
        synchronized (lock) {
            work.run();
            last = work;
        }
    }

    void again() {
        last.run();
    }

    /* atomic */ void count() { // refused: it runs again, without the lock
        locked(() -> {
            count++;
            count++;
        });
    }
}

class HelperThatStarts {
    private final Object lock = new Object();
    private int count;

    private void locked(Runnable work) {
        synchronized (lock) {
            work.run();
            new Thread(work).start();
        }
    }

    /* atomic */ void count() { // refused: another thread runs it too
        locked(() -> {
            count++;
            count++;
        });
    }
}

class HelperOverridden {
    protected final Object lock = new Object();
    private int count;

    void locked(Runnable work) {
        synchronized (lock) {
            work.run();
        }
    }

    /* atomic */ void count() { // refused: another method may run in its place
        locked(() -> {
            count++;
            count++;
        });
    }

    static class Loose extends HelperOverridden {
        @Override
        void locked(Runnable work) {
            work.run();
        }
    }
}

class HelperWithoutLock {
    private int count;

    private void run(Runnable work) {
        work.run();
    }

    synchronized void add() {
        run(() -> count++);
    }

    /* atomic */ void count() { // refused: no lock is held
        run(() -> count++);
    }
}

class HelperOfAnother {
    private int count;

    private void locked(Runnable work) {
        synchronized (this) {
            work.run();
        }
    }

    synchronized void add() {
        count++;
    }

    /* atomic */ void count(HelperOfAnother other) { // refused: that is the other one's lock
        other.locked(() -> {
            count++;
            count++;
        });
    }
}

class HelperSynchronized {
    @GuardedBy("this")
    private int count;

    private synchronized int locked(IntSupplier work) {
        return work.getAsInt();
    }

    private static synchronized int lockedClass(IntSupplier work) {
        return work.getAsInt();
    }

    int count() { // accepted
        return locked(() -> ++count);
    }

    /* atomic */ int twice() { // accepted
        return locked(() -> ++count + count);
    }

    /* atomic */ int wrong() { // refused: that is the lock of the class
        return lockedClass(() -> ++count + count);
    }
}

class HelperWithLock {
    private final ReentrantLock one = new ReentrantLock();
    private final ReentrantLock other = new ReentrantLock();
    @GuardedBy("one")
    private int count;
    @GuardedBy("other")
    private int kept;

    private static <T> T with(ReentrantLock lock, Supplier<T> work) {
        lock.lock();
        try {
            return work.get();
        } finally {
            lock.unlock();
        }
    }

    /* atomic */ int count() { // accepted
        return with(one, () -> ++count + count);
    }

    /* atomic */ int wrong() { // refused: that is another lock
        return with(other, () -> ++count + count);
    }

    /* atomic */ int both() { // accepted
        return with(one, () -> with(other, () -> kept + count + kept) + count);
    }

    /* atomic */ int swapped() { // refused: the inner lock is given back
        return with(one, () -> with(other, () -> 1) + kept);
    }

    /* atomic */ int chosen(boolean first) { // refused: it may be either lock
        return with(first ? one : other, () -> ++count);
    }
}

class HelperWithName {
    private final Object lock = new Object();
    private Supplier<Integer> source = () -> 1;

    private <T> T locked(Supplier<T> work) {
        synchronized (lock) {
            return work.get();
        }
    }

    void set(Supplier<Integer> given) {
        synchronized (lock) {
            source = given;
        }
    }

    /* atomic */ int look() { // refused: the field is looked at before the lock is taken
        int first = locked(source::hashCode);
        return first;
    }

    /* atomic */ int lookTwice() { // refused: so are these
        return locked(source::hashCode) + locked(source::hashCode);
    }
}

class HelperHandsToThread {
    private final Object lock = new Object();
    private int count;

    private void locked(Runnable work) {
        synchronized (lock) {
            work.run();
        }
    }

    private void later(Runnable work) {
        locked(() -> new Thread(work).start());
    }

    void count() {
        later(() -> {
            count++;
            count++;
        });
    }

    /* atomic */ void add() { // refused: another thread does the same without the lock
        locked(() -> {
            count++;
            count++;
        });
    }
}

class HelperOwnInterface {
    private int count;

    private interface Work {
        int run() throws InterruptedException;
    }

    private interface Twice {
        int run();

        default int both() {
            return run() + run();
        }
    }

    private volatile int seen;

    private int locked(Work work) throws InterruptedException {
        synchronized (this) {
            return work.run();
        }
    }

    private int both(Twice work) {
        return work.both();
    }

    /* atomic */ int count() throws InterruptedException { // accepted
        return locked(() -> ++count + count);
    }

    /* atomic */ int steps() throws InterruptedException { // refused: two steps
        return locked(() -> ++seen + seen);
    }

    /* atomic */ int runs() { // refused: it is run twice
        return both(() -> ++seen);
    }
}

class HelperInherited {
    private final Object lock = new Object();

    protected final int locked(IntSupplier work) {
        synchronized (lock) {
            return work.getAsInt();
        }
    }

    static class Below extends HelperInherited {
        private int count;

        /* atomic */ int count() { // accepted
            return locked(() -> ++count + count);
        }
    }
}

class HelperOutside {
    private final Object lock = new Object();

    private int locked(IntSupplier work) {
        synchronized (lock) {
            return work.getAsInt();
        }
    }

    class Part {
        private int count;

        /* atomic */ int count() { // refused: the helper is one of the object around, which isn't followed
            return locked(() -> ++count + count);
        }
    }
}
