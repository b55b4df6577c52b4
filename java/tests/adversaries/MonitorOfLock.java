// The monitor of a lock's object is another lock, and what a lock is given back by in the middle.
import java.util.concurrent.locks.*;

class MonitorOfLock {
    private final ReentrantLock lock = new ReentrantLock();
    private final Condition changed = lock.newCondition();
    private final ReadWriteLock both = new ReentrantReadWriteLock();
    @GuardedBy("lock") private int v;
    @GuardedBy("both") private int w;

    /* atomic */ void f() { // refused
        synchronized (lock) {
            v++;
        }
    }

    /* atomic */ void g() { // refused
        synchronized (changed) {
            v++;
        }
    }

    /* atomic */ void h() { // refused
        synchronized (both) {
            w++;
        }
    }

    /* atomic */ void i() { // refused
        Object monitor = lock;
        synchronized (monitor) {
            v++;
        }
    }

    /* atomic */ void j() { // refused
        synchronized (both.writeLock()) {
            w++;
        }
    }

    /* atomic */ void k() { // accepted
        final Lock mine = lock;
        mine.lock();
        try {
            v++;
        } finally {
            mine.unlock();
        }
    }
}

class GivenBackInTheMiddle {
    private final ReentrantLock lock = new ReentrantLock();
    @GuardedBy("lock") private int v;

    /* atomic */ void f() { // refused
        lock.lock();
        try {
            v++;
            lock.unlock();
            v++;
        } finally {
            lock.unlock();
        }
    }

    private void end() {
        lock.unlock();
    }

    /* atomic */ void g() { // refused
        lock.lock();
        try {
            v++;
            end();
            v++;
        } finally {
            lock.unlock();
        }
    }

    /* atomic */ void h() { // refused
        lock.lock();
        try {
            v++;
            while (lock.isHeldByCurrentThread()) {
                lock.unlock();
            }
            v++;
        } finally {
            lock.unlock();
        }
    }
}

class ReadGivenAsWrite {
    private final ReentrantReadWriteLock lock = new ReentrantReadWriteLock();
    @GuardedBy("lock") private int v;

    /* atomic */ void f() { // refused
        lock.readLock().lock();
        try {
            lock.readLock().unlock();
            lock.writeLock().lock();
            v++;
            v++;
        } finally {
            lock.writeLock().unlock();
        }
    }

    /* atomic */ void g() { // refused
        Lock mine = lock.readLock();
        mine.lock();
        try {
            v++;
        } finally {
            mine.unlock();
        }
    }

    /* atomic */ void h() { // refused
        for (Lock each : new Lock[] {lock.readLock(), lock.writeLock()}) {
            each.lock();
            try {
                v++;
            } finally {
                each.unlock();
            }
        }
    }

    /* atomic */ void i(boolean reads) { // refused
        Lock mine = reads ? lock.readLock() : lock.writeLock();
        mine.lock();
        try {
            v++;
        } finally {
            mine.unlock();
        }
    }
}

class WaitsOnLock {
    private final ReentrantLock lock = new ReentrantLock();
    @GuardedBy("lock") private int v;

    /* atomic */ void f() throws InterruptedException { // refused
        synchronized (lock) {
            while (v == 0) {
                lock.wait();
            }
            v++;
        }
    }
}

@interface GuardedBy {
    String value();
}
