// judged with: --public --infer
package com.example.nineteenth;

import java.util.ArrayList;
import java.util.HashMap;
import java.util.List;
import java.util.Map;
import java.util.Optional;
import java.util.concurrent.atomic.LongAdder;
import java.util.concurrent.locks.ReadWriteLock;
import java.util.concurrent.locks.ReentrantReadWriteLock;
import java.util.function.Function;

/**
 * Least-recently-used cache of rendered pages.
 */
public class LruPageCache<K, V> {

    private static final class Node<K, V> {
        final K key;
        V value;
        Node<K, V> prev;
        Node<K, V> next;

        Node(K key, V value) {
            this.key = key;
            this.value = value;
        }
    }

    private final ReadWriteLock lock = new ReentrantReadWriteLock();
    private final Map<K, Node<K, V>> index = new HashMap<>();
    private final LongAdder hits = new LongAdder();
    private final LongAdder misses = new LongAdder();
    private final int capacity;
    private Node<K, V> first;
    private Node<K, V> last;

    public LruPageCache(int capacity) {
        this.capacity = capacity;
    }

    public Optional<V> get(K key) { // refused: fault: relinks nodes while holding only the read lock: A and B, both readers, unlink and link two nodes at once and the list of nodes is corrupted
        lock.readLock().lock();
        try {
            Node<K, V> n = index.get(key);
            if (n == null) {
                misses.increment();
                return Optional.empty();
            }
            hits.increment();
            if (n != first) {
                unlink(n);
                linkFirst(n);
            }
            return Optional.of(n.value);
        } finally {
            lock.readLock().unlock();
        }
    }

    public Optional<V> peek(K key) { // accepted
        lock.readLock().lock();
        try {
            return Optional.ofNullable(index.get(key)).map(n -> n.value);
        } finally {
            lock.readLock().unlock();
        }
    }

    public V put(K key, V value) { // accepted
        lock.writeLock().lock();
        try {
            return insert(key, value);
        } finally {
            lock.writeLock().unlock();
        }
    }

    public V render(K key, Function<? super K, ? extends V> renderer) { // refused: doubtful: the key is looked up again under the write lock, so state and result are those of an atomic run; but the renderer (unknown, called with no lock) may have been run although the key is present at the moment of effect, which a caller's renderer can notice
        Optional<V> cached = peek(key);
        if (cached.isPresent()) {
            return cached.get();
        }
        V page = renderer.apply(key);
        lock.writeLock().lock();
        try {
            Node<K, V> n = index.get(key);
            if (n != null) {
                return n.value;
            }
            insert(key, page);
            return page;
        } finally {
            lock.writeLock().unlock();
        }
    }

    public boolean invalidate(K key) { // refused: fault: A sees the key under the read lock, B invalidates it (or clear()s) before A has the write lock, A's index.remove gives null and unlink throws a NullPointerException
        lock.readLock().lock();
        try {
            if (!index.containsKey(key)) {
                return false;
            }
        } finally {
            lock.readLock().unlock();
        }
        lock.writeLock().lock();
        try {
            unlink(index.remove(key));
            return true;
        } finally {
            lock.writeLock().unlock();
        }
    }

    public List<K> keys() { // accepted
        lock.readLock().lock();
        try {
            return new ArrayList<>(index.keySet());
        } finally {
            lock.readLock().unlock();
        }
    }

    public double hitRatio() { // refused: fault: two separate sums: with hits=1, misses=0, A reads hits=1, B has a hit and then a miss, A reads misses=1 and gives 0.5, a ratio that never was (1, 1, 0.67)
        long h = hits.sum();
        long m = misses.sum();
        return h + m == 0 ? 0.0 : (double) h / (h + m);
    }

    public void clear() { // accepted
        lock.writeLock().lock();
        try {
            index.clear();
            first = null;
            last = null;
        } finally {
            lock.writeLock().unlock();
        }
    }

    private V insert(K key, V value) {
        Node<K, V> n = index.get(key);
        V old = null;
        if (n != null) {
            old = n.value;
            n.value = value;
            unlink(n);
        } else {
            if (index.size() >= capacity && last != null) {
                index.remove(last.key);
                unlink(last);
            }
            n = new Node<>(key, value);
            index.put(key, n);
        }
        linkFirst(n);
        return old;
    }

    private void linkFirst(Node<K, V> n) {
        n.prev = null;
        n.next = first;
        if (first != null) {
            first.prev = n;
        } else {
            last = n;
        }
        first = n;
    }

    private void unlink(Node<K, V> n) {
        if (n.prev != null) {
            n.prev.next = n.next;
        } else {
            first = n.next;
        }
        if (n.next != null) {
            n.next.prev = n.prev;
        } else {
            last = n.prev;
        }
    }
}
