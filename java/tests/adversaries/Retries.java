// A turn that fails has no effect, if nothing of it is kept. In the last turn the look and the change are one step.
import java.util.concurrent.atomic.AtomicInteger;
import java.util.concurrent.atomic.AtomicReference;

class Retries {
    private final AtomicInteger value = new AtomicInteger();
    private final AtomicInteger other = new AtomicInteger();
    private final AtomicReference<Link> top = new AtomicReference<>();
    private volatile int turns;

    private static final class Link {
        final int item;
        final Link next;

        Link(int item, Link next) {
            this.item = item;
            this.next = next;
        }
    }

    /* atomic */ int doubled() { // accepted
        int old;
        int next;
        do {
            old = value.get();
            next = 2 * old;
        } while (!value.compareAndSet(old, next));
        return next;
    }

    /* atomic */ boolean raise(int wanted) { // accepted
        while (true) {
            int old = value.get();
            if (old >= wanted) {
                return false;
            }
            if (value.compareAndSet(old, wanted)) {
                return true;
            }
        }
    }

    /* atomic */ void push(int item) { // accepted
        for (;;) {
            final Link first = top.get();
            if (top.compareAndSet(first, new Link(item, first))) {
                return;
            }
            Thread.onSpinWait();
        }
    }

    private final AtomicReference<Numbered> last = new AtomicReference<>();

    private static final class Numbered {
        private static final AtomicInteger NUMBERS = new AtomicInteger();
        private final int number = NUMBERS.incrementAndGet();
        private final int item;

        Numbered(int item) {
            this.item = item;
        }
    }

    /* atomic */ void numbered(int item) { // refused
        Numbered old;
        do {
            old = last.get();
        } while (!last.compareAndSet(old, new Numbered(item)));
    }

    /* atomic */ int counted() { // refused
        int tries = 0;
        int old;
        do {
            old = value.get();
            tries += old;
        } while (!value.compareAndSet(old, 2 * old));
        return tries;
    }

    /* atomic */ int remembered() { // refused
        int last = 0;
        int seen;
        int old;
        do {
            seen = last;
            old = value.get();
            last = old;
        } while (!value.compareAndSet(old, 2 * old));
        return seen;
    }

    /* atomic */ void ofTheOther() { // refused
        int old;
        do {
            old = other.get();
        } while (!value.compareAndSet(old, 2 * old));
    }

    /* atomic */ void looksTwice() { // refused
        int old;
        int more;
        do {
            old = value.get();
            more = value.get();
        } while (!value.compareAndSet(old, more + 1));
    }

    /* atomic */ void countsTurns() { // refused
        int old;
        do {
            old = value.get();
            turns = old;
        } while (!value.compareAndSet(old, 2 * old));
    }

    /* atomic */ void changedInBetween(int step) { // refused
        int old;
        do {
            old = value.get();
            old = old + step;
        } while (!value.compareAndSet(old, 2 * old));
    }

    /* atomic */ void again() { // refused
        while (true) {
            int old = value.get();
            if (value.compareAndSet(old, old + 1)) {
                continue;
            }
            if (old > 9) {
                return;
            }
        }
    }

    /* atomic */ void goesOn() { // refused
        int old = 0;
        int next;
        do {
            next = 2 * old;
            if (next > 9) {
                continue;
            }
            old = value.get();
        } while (!value.compareAndSet(old, next));
    }

    /* atomic */ void thenAnother() { // refused
        while (true) {
            int old = value.get();
            if (value.compareAndSet(old, old + 1)) {
                other.set(old);
                return;
            }
        }
    }

    /* atomic */ boolean triesOnce() { // refused
        while (true) {
            int old = value.get();
            if (value.compareAndSet(old, old + 1)) {
                return true;
            }
            break;
        }
        return false;
    }

    /* atomic */ boolean givesUp() { // refused
        for (;;) {
            int old = value.get();
            if (value.compareAndSet(old, old + 1)) {
                return true;
            } else {
                return false;
            }
        }
    }

    /* atomic */ int tooLate() { // refused
        int before = 0;
        int next;
        int old;
        do {
            next = before + 1;
            old = value.get();
            before = old;
        } while (!value.compareAndSet(old, next));
        return next;
    }

    /* atomic */ void byAnotherName(AtomicInteger given) { // refused
        AtomicInteger changing = value;
        int old;
        do {
            old = changing.get();
            changing = given;
        } while (!changing.compareAndSet(old, 2 * old));
    }

    /* atomic */ boolean keepsInArray(int[] seen) { // refused
        int[] mine = new int[1];
        int old;
        do {
            old = value.get();
            mine[0] += old;
        } while (!value.compareAndSet(old, 2 * old));
        return mine[0] > 9;
    }
}
