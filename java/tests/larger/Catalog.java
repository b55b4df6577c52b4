package catalog;

import atomic.Atomic;
import java.util.ArrayList;
import java.util.List;
import java.util.Map;
import java.util.TreeMap;
import java.util.concurrent.locks.ReadWriteLock;
import java.util.concurrent.locks.ReentrantReadWriteLock;
import javax.annotation.concurrent.GuardedBy;

/** Titles and their places, under a lock for readers and writers. */
public class Catalog {
    private final ReadWriteLock lock = new ReentrantReadWriteLock();
    @GuardedBy("lock") private final Map<String, Integer> places = new TreeMap<>();
    @GuardedBy("lock") private int version;

    @Atomic
    public Integer find(String title) {
        lock.readLock().lock();
        try {
            return places.get(title);
        } finally {
            lock.readLock().unlock();
        }
    }

    @Atomic
    public int size() {
        lock.readLock().lock();
        try {
            return places.size();
        } finally {
            lock.readLock().unlock();
        }
    }

    @Atomic
    public List<String> titles() {
        lock.readLock().lock();
        try {
            return new ArrayList<>(places.keySet());
        } finally {
            lock.readLock().unlock();
        }
    }

    @Atomic
    public int add(String title, int place) {
        lock.writeLock().lock();
        try {
            places.put(title, place);
            return ++version;
        } finally {
            lock.writeLock().unlock();
        }
    }

    @Atomic
    public boolean remove(String title) {
        lock.writeLock().lock();
        try {
            if (places.remove(title) == null) {
                return false;
            }
            version++;
            return true;
        } finally {
            lock.writeLock().unlock();
        }
    }

    @Atomic
    public void addIfNewer(String title, int place, int seen) {
        lock.writeLock().lock();
        try {
            if (version == seen) {
                places.put(title, place);
                version++;
            }
        } finally {
            lock.writeLock().unlock();
        }
    }
}
