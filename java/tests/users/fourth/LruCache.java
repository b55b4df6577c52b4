// judged with: --public --infer
package com.example.fourth;

import java.util.ArrayList;
import java.util.HashMap;
import java.util.Iterator;
import java.util.List;
import java.util.Map;
import java.util.concurrent.locks.ReentrantReadWriteLock;
import java.util.function.Function;

/** An LRU cache: a hash map of nodes that are linked in a circle, the youngest behind the anchor. */
public class LruCache<K, V> implements Iterable<K> {

    private static class Node<K, V> {
        final K key;
        V value;
        Node<K, V> prev = this, next = this;
        Node(K key, V value) { this.key = key; this.value = value; }
        void unlink() { prev.next = next; next.prev = prev; }
        void linkBehind(Node<K, V> other) {
            prev = other;
            next = other.next;
            next.prev = other.next = this;
        }
    }

    private final ReentrantReadWriteLock rw = new ReentrantReadWriteLock();
    private final Map<K, Node<K, V>> index = new HashMap<>();
    private final Node<K, V> anchor = new Node<>(null, null);
    private volatile int capacity;

    public LruCache(int capacity) { this.capacity = capacity; }

    public V get(K key) { // refused: fault: changes the links under the *read* lock: data race on Node.prev/next
        rw.readLock().lock();
        try {
            Node<K, V> n = index.get(key);
            if (n == null) return null;
            touch(n);
            return n.value;
        } finally { rw.readLock().unlock(); }
    }

    public V peek(K key) { // accepted
        rw.readLock().lock();
        try {
            Node<K, V> n = index.get(key);
            return n == null ? null : n.value;
        } finally { rw.readLock().unlock(); }
    }

    public V put(K key, V value) { // accepted
        rw.writeLock().lock();
        try {
            Node<K, V> n = index.get(key);
            if (n == null) return insert(key, value);
            touch(n);
            V old = n.value;
            n.value = value;
            return old;
        } finally { rw.writeLock().unlock(); }
    }

    public V getOrLoad(K key, Function<? super K, ? extends V> loader) { // refused: fault: for the cache's state it is atomic (the first look is a pure read
        V v = peek(key);
        if (v != null) return v;
        V loaded = loader.apply(key);
        rw.writeLock().lock();
        try {
            Node<K, V> n = index.get(key);
            if (n != null) return n.value;
            insert(key, loaded);
            return loaded;
        } finally { rw.writeLock().unlock(); }
    }

    public boolean remove(K key) { // accepted
        rw.writeLock().lock();
        try {
            Node<K, V> n = index.remove(key);
            if (n != null) n.unlink();
            return n != null;
        } finally { rw.writeLock().unlock(); }
    }

    public int capacity() { return capacity; } // accepted
    public void resize(int newCapacity) { // refused: fault: volatile write outside the lock, then shrink in the lock
        capacity = newCapacity;
        rw.writeLock().lock();
        try { shrink(); } finally { rw.writeLock().unlock(); }
    }

    public List<K> keysByAge() { // accepted
        rw.writeLock().lock();
        try {
            List<K> keys = new ArrayList<>();
            for (Node<K, V> n = anchor.next; n != anchor; n = n.next) keys.add(n.key);
            return keys;
        } finally { rw.writeLock().unlock(); }
    }

    @Override public Iterator<K> iterator() { return keysByAge().iterator(); } // accepted

    private void touch(Node<K, V> n) { n.unlink(); n.linkBehind(anchor); }

    private V insert(K key, V value) {
        Node<K, V> n = new Node<>(key, value);
        index.put(key, n);
        n.linkBehind(anchor);
        shrink();
        return null;
    }

    private void shrink() {
        int limit = capacity;
        while (index.size() > limit) {
            Node<K, V> eldest = anchor.prev;
            eldest.unlink();
            index.remove(eldest.key);
        }
    }
}
