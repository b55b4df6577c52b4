package com.example.cache;

import java.util.HashMap;
import java.util.Map;
import java.util.function.Function;

/** A cache of the entries that were used last, as a map of nodes that are linked in the order of use. */
// judged with: --public --infer
public class LruCache<K, V> {

    private static final class Node<K, V> {
        final K key;
        V value;
        Node<K, V> previous;
        Node<K, V> next;

        Node(K key, V value) {
            this.key = key;
            this.value = value;
        }
    }

    private final int capacity;
    private final Map<K, Node<K, V>> nodes = new HashMap<>();
    private Node<K, V> first;
    private Node<K, V> last;
    private long hits;
    private long misses;

    public LruCache(int capacity) {
        this.capacity = capacity;
    }

    public synchronized V get(K key) { // accepted
        Node<K, V> node = nodes.get(key);
        if (node == null) {
            misses++;
            return null;
        }
        hits++;
        unlink(node);
        linkFirst(node);
        return node.value;
    }

    public synchronized V put(K key, V value) { // accepted
        Node<K, V> node = nodes.get(key);
        if (node != null) {
            V old = node.value;
            node.value = value;
            unlink(node);
            linkFirst(node);
            return old;
        }
        if (nodes.size() >= capacity) {
            nodes.remove(last.key);
            unlink(last);
        }
        node = new Node<>(key, value);
        nodes.put(key, node);
        linkFirst(node);
        return null;
    }

    public synchronized V remove(K key) { // accepted
        Node<K, V> node = nodes.remove(key);
        if (node == null) {
            return null;
        }
        unlink(node);
        return node.value;
    }

    public synchronized int size() { // accepted
        return nodes.size();
    }

    public synchronized void clear() { // accepted
        nodes.clear();
        first = null;
        last = null;
    }

    public synchronized double hitRate() { // accepted
        long all = hits + misses;
        return all == 0 ? 0.0 : (double) hits / all;
    }

    public V getOrLoad(K key, Function<? super K, ? extends V> loader) { // refused: fault: get and put are two regions
        V value = get(key);
        if (value == null) {
            value = loader.apply(key);
            put(key, value);
        }
        return value;
    }

    private void linkFirst(Node<K, V> node) {
        node.previous = null;
        node.next = first;
        if (first != null) {
            first.previous = node;
        }
        first = node;
        if (last == null) {
            last = node;
        }
    }

    private void unlink(Node<K, V> node) {
        if (node.previous == null) {
            first = node.next;
        } else {
            node.previous.next = node.next;
        }
        if (node.next == null) {
            last = node.previous;
        } else {
            node.next.previous = node.previous;
        }
    }
}
