// judged with: --public --infer
package com.example.sixth;

import java.util.HashMap;
import java.util.Iterator;
import java.util.LinkedHashMap;
import java.util.Map;
import java.util.NoSuchElementException;
import java.util.function.Function;
import java.util.function.Predicate;

/** A least-recently-used cache over a doubly linked list of its own nodes. */
public class LruCache<K, V> implements Iterable<K> {

    private static final class Node<K, V> {
        final K key;
        V value;
        Node<K, V> prev, next;

        Node(K key, V value) {
            this.key = key;
            this.value = value;
        }
    }

    private final int capacity;
    private final Map<K, Node<K, V>> index = new HashMap<>();
    private final Node<K, V> root = new Node<>(null, null);
    private long hits;
    private long misses;

    public LruCache(int capacity) {
        this.capacity = capacity;
        root.prev = root;
        root.next = root;
    }

    public synchronized V get(K key) { // accepted
        Node<K, V> node = index.get(key);
        if (node == null) {
            misses++;
            return null;
        }
        hits++;
        unlink(node);
        linkFirst(node);
        return node.value;
    }

    public synchronized V put(K key, V value) { // accepted
        Node<K, V> node = index.get(key);
        if (node != null) {
            V old = node.value;
            node.value = value;
            unlink(node);
            linkFirst(node);
            return old;
        }
        node = new Node<>(key, value);
        index.put(key, node);
        linkFirst(node);
        if (index.size() > capacity) {
            Node<K, V> eldest = root.prev;
            unlink(eldest);
            index.remove(eldest.key);
        }
        return null;
    }

    public synchronized V putIfAbsent(K key, V value) { // accepted
        Node<K, V> node = index.get(key);
        return node != null ? node.value : put(key, value);
    }

    public V getOrLoad(K key, Function<? super K, ? extends V> loader) { // refused: fault: two regions: get finds nothing, another thread's put(k,x) returns null (nothing before), getOrLoad then overwrites x and returns its own value: with put first it would return x, with put second x would remain
        V value = get(key);
        if (value == null) {
            value = loader.apply(key);
            put(key, value);
        }
        return value;
    }

    public synchronized V remove(K key) { // accepted
        Node<K, V> node = index.remove(key);
        if (node == null) {
            return null;
        }
        unlink(node);
        return node.value;
    }

    public synchronized void clear() { // accepted
        index.clear();
        root.next = root;
        root.prev = root;
    }

    public synchronized Map<K, V> snapshot() { // accepted
        Map<K, V> copy = new LinkedHashMap<>();
        for (Node<K, V> n = root.next; n != root; n = n.next) {
            copy.put(n.key, n.value);
        }
        return copy;
    }

    public int removeIf(Predicate<? super V> condition) { // refused: fault: snapshot and remove are separate regions: the value tested matches, another thread's put(k, good) replaces it, remove(k) then removes the good value that does not match
        int removed = 0;
        for (Map.Entry<K, V> entry : snapshot().entrySet()) {
            if (condition.test(entry.getValue()) && remove(entry.getKey()) != null) {
                removed++;
            }
        }
        return removed;
    }

    public double hitRatio() { // refused: fault: two reads without the lock: reads hits=0, another thread does a get that hits and a get that misses, reads misses=1: ratio 0.0 although the ratios were 1.0, 1.0, 0.5 (also a data race on hits and misses)
        long h = hits;
        long m = misses;
        return h + m == 0 ? 1.0 : (double) h / (h + m);
    }

    @Override
    public Iterator<K> iterator() { // accepted: the call only makes the iterator, whose walk is several calls
        return new KeyIterator();
    }

    private void linkFirst(Node<K, V> node) {
        node.prev = root;
        node.next = root.next;
        root.next.prev = node;
        root.next = node;
    }

    private void unlink(Node<K, V> node) {
        node.prev.next = node.next;
        node.next.prev = node.prev;
    }

    private final class KeyIterator implements Iterator<K> {
        private Node<K, V> current = root;

        @Override
        public boolean hasNext() {
            synchronized (LruCache.this) {
                return current.next != root;
            }
        }

        @Override
        public K next() {
            synchronized (LruCache.this) {
                if (current.next == root) {
                    throw new NoSuchElementException();
                }
                current = current.next;
                return current.key;
            }
        }
    }
}
