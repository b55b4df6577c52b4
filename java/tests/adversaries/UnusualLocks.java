// Locks under unusual names: chosen, assigned again, shadowed, tried, taken in a loop, given back elsewhere.
import java.util.concurrent.TimeUnit;
import java.util.concurrent.locks.*;
import java.util.function.Supplier;

class TernaryLock {
    private final Object other = new Object();
    @GuardedBy("this") private int v;

    /* atomic */ void f(boolean mine) { // refused
        final Object lock = mine ? this : other;
        synchronized (lock) {
            v++;
        }
    }

    /* atomic */ void g(int kind) { // refused
        synchronized (switch (kind) { case 0 -> this; default -> other; }) {
            v++;
        }
    }

    /* atomic */ void h(Object lock) { // refused
        synchronized (lock = other) {
            v++;
        }
    }
}

class ReassignedInLambda {
    private Object lock = new Object();
    @GuardedBy("lock") private int v;

    Runnable changer() {
        return () -> lock = new Object();
    }

    /* atomic */ void f() { // refused
        synchronized (lock) {
            v++;
            v++;
        }
    }
}

class ReassignedInAnonymous {
    private Object lock = new Object();
    @GuardedBy("lock") private int v;

    Runnable changer() {
        return new Runnable() {
            public void run() {
                ReassignedInAnonymous.this.lock = new Object();
            }
        };
    }

    /* atomic */ void f() { // refused
        synchronized (lock) {
            v++;
            v++;
        }
    }
}

class ReassignedByOther {
    Object lock = new Object();
    @GuardedBy("lock") private int v;

    /* atomic */ void f() { // refused
        synchronized (lock) {
            v++;
            v++;
        }
    }
}

class Other {
    void f(ReassignedByOther a) {
        (a).lock = this;
    }
}

class LocalShadows {
    private final Object lock = new Object();
    @GuardedBy("lock") private int v;

    /* atomic */ void f() { // refused
        Object lock = new Object();
        synchronized (lock) {
            v++;
        }
    }

    /* atomic */ void g(Object lock) { // refused
        synchronized (lock) {
            v++;
        }
    }

    /* atomic */ void h(Object given) { // refused
        if (given instanceof String lock) {
            synchronized (lock) {
                v++;
            }
        }
    }

    /* atomic */ void k(Object given) { // accepted
        if (!(given instanceof String lock)) {
            synchronized (this.lock) {
                v++;
            }
        }
    }
}

class LockGetter {
    private final Lock lock = new ReentrantLock();
    @GuardedBy("lock") private int v;

    private Lock lock() {
        return new ReentrantLock();
    }

    /* atomic */ void f() { // refused
        lock().lock();
        try {
            v++;
        } finally {
            lock().unlock();
        }
    }
}

class TimedTry {
    private final ReentrantLock lock = new ReentrantLock();
    @GuardedBy("lock") private int v;

    /* atomic */ void f() throws InterruptedException { // refused
        lock.tryLock(1, TimeUnit.SECONDS);
        try {
            v++;
        } finally {
            lock.unlock();
        }
    }

    /* atomic */ void g() throws InterruptedException { // refused
        if (lock.tryLock(1, TimeUnit.SECONDS)) {
            try {
                v++;
            } finally {
                lock.unlock();
            }
        } else {
            v++;
        }
    }

    /* atomic */ boolean h() throws InterruptedException { // accepted
        if (lock.tryLock(1, TimeUnit.SECONDS)) {
            try {
                v++;
                return true;
            } finally {
                lock.unlock();
            }
        }
        return false;
    }

    /* atomic */ void k() { // refused
        boolean got = lock.tryLock();
        try {
            v++;
        } finally {
            if (got) {
                lock.unlock();
            }
        }
    }

    /* atomic */ void l() { // refused
        if (!lock.tryLock()) {
            try {
                v++;
            } finally {
                lock.unlock();
            }
        }
    }

    /* atomic */ void m() { // refused
        if (lock.tryLock() || v == 0) {
            try {
                v++;
            } finally {
                lock.unlock();
            }
        }
    }
}

class LockInLoop {
    private final ReentrantLock lock = new ReentrantLock();
    @GuardedBy("lock") private int v;

    /* atomic */ void f() { // refused
        for (int k = 0; k < 2; k++) {
            lock.lock();
            try {
                v++;
            } finally {
                lock.unlock();
            }
        }
    }

    /* atomic */ void g(boolean again) { // refused
        do {
            lock.lock();
            try {
                v++;
                if (again) {
                    continue;
                }
            } finally {
                lock.unlock();
            }
            again = !again;
        } while (again);
    }

    /* atomic */ void h() { // refused
        while (true) {
            lock.lock();
            try {
                v++;
                if (v > 3) {
                    break;
                }
            } finally {
                lock.unlock();
            }
        }
    }
}

class UnlockElsewhere {
    private final ReentrantLock lock = new ReentrantLock();
    @GuardedBy("lock") private int v;

    void end() {
        lock.unlock();
    }

    /* atomic */ void f() { // refused
        lock.lock();
        try {
            v++;
            end();
            begin();
            v++;
        } finally {
            lock.unlock();
        }
    }

    void begin() {
        lock.lock();
    }
}

class TwoViews {
    private final ReadWriteLock one = new ReentrantReadWriteLock();
    private final ReadWriteLock two = new ReentrantReadWriteLock();
    private final Lock writes = two.writeLock();
    @GuardedBy("one") private int v;

    /* atomic */ void f() { // refused
        writes.lock();
        try {
            v++;
        } finally {
            writes.unlock();
        }
    }

    /* atomic */ void g() { // refused
        one.writeLock().lock();
        try {
            v++;
        } finally {
            two.writeLock().unlock();
        }
    }
}

class LockBySupplier {
    private final Supplier<Object> locks = Object::new;
    @GuardedBy("locks") private int v;

    /* atomic */ void f() { // refused
        synchronized (locks.get()) {
            v++;
        }
    }
}

class Striped {
    private final Object[] locks = {new Object(), new Object()};
    private final int[] values = new int[8];

    /* atomic */ void f(int k, int other) { // refused
        synchronized (locks[k % 2]) {
            values[k]++;
            values[other]++;
        }
    }
}

class AwaitsOtherLock {
    private final ReentrantLock one = new ReentrantLock();
    private final ReentrantLock two = new ReentrantLock();
    private final Condition changed = two.newCondition();
    @GuardedBy("one") private int v;
    @GuardedBy("two") private boolean ready;

    /* atomic */ void f() throws InterruptedException { // refused
        one.lock();
        try {
            v++;
            two.lock();
            try {
                while (!ready) {
                    changed.await();
                }
            } finally {
                two.unlock();
            }
            v++;
        } finally {
            one.unlock();
        }
    }
}

@interface GuardedBy {
    String value();
}
