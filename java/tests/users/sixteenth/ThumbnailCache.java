// judged with: --public --infer
package com.example.sixteenth;

import java.util.ArrayList;
import java.util.HashMap;
import java.util.List;
import java.util.Map;
import java.util.Optional;
import java.util.function.BiConsumer;
import java.util.function.Function;

/** Keeps the most recently used thumbnails. */
public class ThumbnailCache<K, V> {

    private static final class Node<K, V> {
        final K key;
        V value;
        Node<K, V> prev = this;
        Node<K, V> next = this;

        Node(K key, V value) {
            this.key = key;
            this.value = value;
        }

        void unlink() {
            prev.next = next;
            next.prev = prev;
        }

        void linkAfter(Node<K, V> other) {
            prev = other;
            next = other.next;
            other.next.prev = this;
            other.next = this;
        }
    }

    private final Object mutex = new Object();
    private final Map<K, Node<K, V>> index = new HashMap<>();
    private final Node<K, V> ring = new Node<>(null, null);
    private final int capacity;
    private long hits;
    private long misses;

    public ThumbnailCache(int capacity) {
        this.capacity = capacity;
    }

    public V get(K key) { // refused: alarm: one synchronized block on mutex (only the culprit clear() can disturb it)
        synchronized (mutex) {
            Node<K, V> node = index.get(key);
            if (node == null) {
                misses++;
                return null;
            }
            hits++;
            node.unlink();
            node.linkAfter(ring);
            return node.value;
        }
    }

    /** Returns the cached value, loading it first if there is none. */
    public V getOrLoad(K key, Function<? super K, ? extends V> loader) { // refused: fault: a and B both miss, both load, the later put overwrites the first: A returns a value that is not the cached one; a put(key) of B during A's load is overwritten by the older load
        V value = get(key);
        if (value == null) {
            value = loader.apply(key);
            put(key, value);
        }
        return value;
    }

    public void put(K key, V value) { // refused: alarm: one synchronized block; the lambda runs inside it (only the culprit clear() can disturb it)
        synchronized (mutex) {
            Node<K, V> node = index.computeIfAbsent(key, k -> {
                Node<K, V> fresh = new Node<>(k, value);
                fresh.linkAfter(ring);
                return fresh;
            });
            node.value = value;
            if (index.size() > capacity) {
                Node<K, V> last = ring.prev;
                last.unlink();
                index.remove(last.key);
            }
        }
    }

    public List<K> keysByRecency() { // refused: alarm: one synchronized block, a copy is returned (only the culprit clear() can disturb it)
        List<K> keys = new ArrayList<>();
        synchronized (mutex) {
            for (Node<K, V> n = ring.next; n != ring; n = n.next) {
                keys.add(n.key);
            }
        }
        return keys;
    }

    public void forEach(BiConsumer<? super K, ? super V> action) { // refused: alarm: the copy is made in one region, the unknown action runs on the copy without the lock and touches no own state (only the culprit clear() can disturb it)
        Map<K, V> copy = new HashMap<>();
        synchronized (mutex) {
            index.forEach((k, node) -> copy.put(k, node.value));
        }
        copy.forEach(action);
    }

    public Optional<K> eldest() { // refused: alarm: one synchronized block; both reads of ring.prev are in it (only the culprit clear() can disturb it)
        synchronized (mutex) {
            return ring.prev == ring ? Optional.empty() : Optional.of(ring.prev.key);
        }
    }

    public double hitRatio() { // refused: fault: a reads hits=0 and misses=1, B has five hits, A reads hits=5: the ratio is 5.0
        long lookups = hits + misses;
        return lookups == 0 ? 0.0 : (double) hits / lookups;
    }

    public synchronized void clear() { // refused: fault: locks this, all others lock mutex: B's put links a node and changes the HashMap while A clears; the index and the ring no longer agree
        index.clear();
        ring.prev = ring;
        ring.next = ring;
    }
}
