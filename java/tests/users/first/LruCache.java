// judged with: --public --infer
package com.example.first;

import java.util.*;
import java.util.function.Function;

/** LRU cache with its own recency list; the sentinel's next is the most recent entry. */
public class LruCache<K, V> implements Iterable<K> {
    private static class Node<K, V> {
        K key;
        V value;
        Node<K, V> prev = this, next = this;

        void unlink() {
            prev.next = next;
            next.prev = prev;
        }

        void linkAfter(Node<K, V> n) {
            prev = n;
            next = n.next;
            n.next.prev = this;
            n.next = this;
        }
    }

    private final Object mutex = new Object();
    private final Map<K, Node<K, V>> index = new HashMap<K, Node<K, V>>();
    private final Node<K, V> sentinel = new Node<K, V>();
    private int limit;
    private volatile long hits;
    private volatile long misses;

    public LruCache(int limit) {
        this.limit = limit;
    }

    public V get(K key) { // accepted
        synchronized (mutex) {
            Node<K, V> n = index.get(key);
            if (n == null) {
                misses++;
                return null;
            }
            hits++;
            n.unlink();
            n.linkAfter(sentinel);
            return n.value;
        }
    }

    public V put(K key, V value) { // accepted
        synchronized (mutex) {
            Node<K, V> n = index.get(key);
            V old = null;
            if (n == null) {
                n = new Node<K, V>();
                n.key = key;
                index.put(key, n);
            } else {
                old = n.value;
                n.unlink();
            }
            n.value = value;
            n.linkAfter(sentinel);
            shrink();
            return old;
        }
    }

    public V getOrLoad(K key, Function<? super K, ? extends V> loader) { // refused: fault: get, load, put in separate pieces
        V v = get(key);
        if (v == null) {
            v = loader.apply(key);
            put(key, v);
        }
        return v;
    }

    public void resize(int newLimit) { // accepted
        synchronized (mutex) {
            limit = newLimit;
            shrink();
        }
    }

    public void clear() { // refused: fault: index and list are cleared in two critical sections
        synchronized (mutex) {
            index.clear();
        }
        synchronized (mutex) {
            sentinel.prev = sentinel.next = sentinel;
        }
    }

    public Map<K, V> snapshot() { // accepted
        Map<K, V> copy = new LinkedHashMap<K, V>();
        synchronized (mutex) {
            for (Node<K, V> n = sentinel.next; n != sentinel; n = n.next) {
                copy.put(n.key, n.value);
            }
        }
        return copy;
    }

    public long hits() { return hits; } // accepted
    public double hitRatio() { // refused: fault: three volatile reads
        long total = hits + misses;
        return total == 0 ? 0 : (double) hits / total;
    }

    public int size() { synchronized (mutex) { return index.size(); } } // accepted
    public Iterator<K> iterator() { return snapshot().keySet().iterator(); } // accepted

    private void shrink() {
        while (index.size() > limit) {
            Node<K, V> eldest = sentinel.prev;
            eldest.unlink();
            index.remove(eldest.key);
        }
    }
}
