import java.util.concurrent.locks.ReentrantLock;

// A local that is declared between lock() and unlock(), and spoken of behind that.
class LocalBehindUnlock {
    private final ReentrantLock lock = new ReentrantLock();
    @GuardedBy("lock") private LocalBehindUnlock next;
    @GuardedBy("this") private int value;

    /* atomic */ int valueOfNext() { // refused
        lock.lock();
        LocalBehindUnlock found = next;
        lock.unlock();
        synchronized (found) {
            return found.value;
        }
    }

    /* atomic */ void unguarded() { // refused
        lock.lock();
        LocalBehindUnlock found = this;
        lock.unlock();
        found.next = null;
    }

    /* atomic */ boolean isAlone() { // accepted
        lock.lock();
        LocalBehindUnlock found = next;
        lock.unlock();
        return found == this;
    }
}

@interface GuardedBy {
    String value();
}
