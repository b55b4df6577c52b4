// A look at a map of weak keys changes it, and readers hold the lock together.
import java.util.*;
import java.util.concurrent.locks.*;

class WeakMapUnderReadLock {
    private final ReadWriteLock lock = new ReentrantReadWriteLock();
    @GuardedBy("lock") private final Map<Object, String> all = new WeakHashMap<>();

    /* atomic */ String f(Object key) { // refused
        lock.readLock().lock();
        try {
            return all.get(key);
        } finally {
            lock.readLock().unlock();
        }
    }
}

@interface GuardedBy {
    String value();
}
