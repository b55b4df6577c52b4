// judged with: --public --infer
package com.example.twentieth;

import java.time.Duration;
import java.util.Arrays;
import java.util.concurrent.atomic.AtomicInteger;
import java.util.concurrent.locks.ReentrantLock;
import java.util.function.BiConsumer;
import java.util.function.Function;
import java.util.stream.IntStream;

/**
 * Hash table whose entries go out of date; one lock for each stripe of buckets.
 */
public class StripedTtlCache<K, V> {

    private static final class Entry<K, V> {
        final K key;
        V value;
        long deadline;
        Entry<K, V> next;

        Entry(K key, Entry<K, V> next) {
            this.key = key;
            this.next = next;
        }

        boolean stale() {
            return deadline - System.nanoTime() <= 0;
        }
    }

    private static final int STRIPES = 8;

    private final Entry<K, V>[] table;
    private final ReentrantLock[] stripes;
    private final AtomicInteger size = new AtomicInteger();
    private final long ttl;

    @SuppressWarnings("unchecked")
    public StripedTtlCache(int bucketsPerStripe, Duration ttl) {
        this.table = (Entry<K, V>[]) new Entry<?, ?>[STRIPES * bucketsPerStripe];
        this.stripes = IntStream.range(0, STRIPES).mapToObj(i -> new ReentrantLock()).toArray(ReentrantLock[]::new);
        this.ttl = ttl.toNanos();
    }

    public V get(K key) { // refused: alarm: one region of the key's stripe
        ReentrantLock lock = stripe(key);
        lock.lock();
        try {
            Entry<K, V> e = find(key);
            return e == null || e.stale() ? null : e.value;
        } finally {
            lock.unlock();
        }
    }

    public V put(K key, V value) { // refused: alarm: one region of the key's stripe; the size counter changes once, inside it, and the rest can be seen only through the stripe lock
        ReentrantLock lock = stripe(key);
        lock.lock();
        try {
            return store(key, value);
        } finally {
            lock.unlock();
        }
    }

    public V getOrLoad(K key, Function<? super K, ? extends V> loader) { // refused: alarm: one region of the key's stripe; calls the unknown loader while holding the lock, atomic as far as the own state goes
        ReentrantLock lock = stripe(key);
        lock.lock();
        try {
            Entry<K, V> e = find(key);
            if (e != null && !e.stale()) {
                return e.value;
            }
            V value = loader.apply(key);
            store(key, value);
            return value;
        } finally {
            lock.unlock();
        }
    }

    /** Loads the value of a cached key again. */
    public V refresh(K key, Function<? super K, ? extends V> loader) { // refused: fault: A gets the old value and loads, B removes the key (or puts a newer value), A puts its value: the removed key is back
        V old = get(key);
        if (old == null) {
            return null;
        }
        V fresh = loader.apply(key);
        if (!fresh.equals(old)) {
            put(key, fresh);
        }
        return fresh;
    }

    public boolean remove(K key) { // refused: alarm: one region of the key's stripe
        ReentrantLock lock = stripe(key);
        lock.lock();
        try {
            Entry<K, V> e = find(key);
            if (e == null) {
                return false;
            }
            unlink(bucket(key), e);
            return true;
        } finally {
            lock.unlock();
        }
    }

    public int size() { // accepted
        return size.get();
    }

    public void purge() { // refused: fault: a region for each bucket and a decrement for each entry: with 5 stale entries B's size() sees 4, 3, .. while A is at work
        for (int i = 0; i < table.length; i++) {
            ReentrantLock lock = stripes[i % STRIPES];
            lock.lock();
            try {
                for (Entry<K, V> e = table[i]; e != null; e = e.next) {
                    if (e.stale()) {
                        unlink(i, e);
                    }
                }
            } finally {
                lock.unlock();
            }
        }
    }

    public void forEach(BiConsumer<? super K, ? super V> action) { // refused: fault: a region for each bucket: A is past the bucket of k1, B puts k1 and then k2, A meets k2 but never k1 (calls the unknown action while holding a stripe lock)
        for (int i = 0; i < table.length; i++) {
            ReentrantLock lock = stripes[i % STRIPES];
            lock.lock();
            try {
                for (Entry<K, V> e = table[i]; e != null; e = e.next) {
                    action.accept(e.key, e.value);
                }
            } finally {
                lock.unlock();
            }
        }
    }

    public void clear() { // refused: alarm: holds all of the stripe locks, size is set once
        for (ReentrantLock lock : stripes) {
            lock.lock();
        }
        try {
            Arrays.fill(table, null);
            size.set(0);
        } finally {
            for (ReentrantLock lock : stripes) {
                lock.unlock();
            }
        }
    }

    private int bucket(K key) {
        return Math.floorMod(key.hashCode(), table.length);
    }

    private ReentrantLock stripe(K key) {
        return stripes[bucket(key) % STRIPES];
    }

    private Entry<K, V> find(K key) {
        Entry<K, V> e = table[bucket(key)];
        while (e != null && !e.key.equals(key)) {
            e = e.next;
        }
        return e;
    }

    private V store(K key, V value) {
        Entry<K, V> e = find(key);
        V old = null;
        if (e == null) {
            int b = bucket(key);
            e = new Entry<>(key, table[b]);
            table[b] = e;
            size.incrementAndGet();
        } else if (!e.stale()) {
            old = e.value;
        }
        e.value = value;
        e.deadline = System.nanoTime() + ttl;
        return old;
    }

    private void unlink(int b, Entry<K, V> gone) {
        if (table[b] == gone) {
            table[b] = gone.next;
        } else {
            Entry<K, V> e = table[b];
            while (e.next != gone) {
                e = e.next;
            }
            e.next = gone.next;
        }
        size.decrementAndGet();
    }
}
