// judged with: --public --infer
package com.example.seventeenth;

import java.util.ArrayList;
import java.util.List;
import java.util.concurrent.atomic.AtomicInteger;
import java.util.function.Function;

/**
 * Hash table of rendered map tiles, locked in stripes.
 */
public class TileCache<K, V> {

    private static final class Node<K, V> {
        private final K key;
        private V value;
        private Node<K, V> next;

        Node(K key, V value, Node<K, V> next) {
            this.key = key;
            this.value = value;
            this.next = next;
        }
    }

    private static final int STRIPES = 16;

    private final Object[] stripes = new Object[STRIPES];
    private final Node<K, V>[] table;
    private final AtomicInteger count = new AtomicInteger();

    @SuppressWarnings("unchecked")
    public TileCache(int bucketsPerStripe) {
        table = (Node<K, V>[]) new Node<?, ?>[STRIPES * bucketsPerStripe];
        for (int i = 0; i < STRIPES; i++) {
            stripes[i] = new Object();
        }
    }

    public V get(K key) { // refused: alarm: one stripe lock, the bucket belongs to that stripe (only the culprit clear() disturbs others, and get not even so)
        synchronized (stripe(key)) {
            Node<K, V> node = find(key);
            return node == null ? null : node.value;
        }
    }

    public boolean contains(K key) { // accepted
        synchronized (stripe(key)) {
            return find(key) != null;
        }
    }

    public V getOrDefault(K key, V fallback) { // refused: fault: a sees that the key is there, B clears, A's get returns null and not the fallback
        return contains(key) ? get(key) : fallback;
    }

    public V put(K key, V value) { // refused: alarm: one stripe lock; the counter is raised inside it and nobody sees the node before (only the culprit clear() can lose the count)
        synchronized (stripe(key)) {
            Node<K, V> node = find(key);
            if (node != null) {
                V old = node.value;
                node.value = value;
                return old;
            }
            insert(key, value);
            return null;
        }
    }

    public V computeIfAbsent(K key, Function<? super K, ? extends V> renderer) { // refused: alarm: one stripe lock; the unknown renderer is called while holding it, atomic as far as the own state goes
        synchronized (stripe(key)) {
            Node<K, V> node = find(key);
            return node != null ? node.value : insert(key, renderer.apply(key));
        }
    }

    /** Exchanges the tiles of two keys if both are present. */
    public boolean swap(K a, K b) { // refused: alarm: both stripe locks are held, taken in a fixed order; bucket numbers depend only on the final table's length
        boolean inOrder = bucket(a) % STRIPES <= bucket(b) % STRIPES;
        synchronized (stripe(inOrder ? a : b)) {
            synchronized (stripe(inOrder ? b : a)) {
                Node<K, V> first = find(a);
                Node<K, V> second = find(b);
                if (first == null || second == null) {
                    return false;
                }
                V value = first.value;
                first.value = second.value;
                second.value = value;
                return true;
            }
        }
    }

    public int size() { // accepted
        return count.get();
    }

    public List<K> keys() { // refused: fault: stripe by stripe: A passes stripe 0, B puts x in stripe 0 and then y in stripe 1, A lists y without x
        List<K> keys = new ArrayList<>(size());
        for (int i = 0; i < table.length; i++) {
            synchronized (stripes[i % STRIPES]) {
                for (Node<K, V> n = table[i]; n != null; n = n.next) {
                    keys.add(n.key);
                }
            }
        }
        return keys;
    }

    public void clear() { // refused: fault: stripe by stripe: A clears stripe 0, B puts x there and still gets y from stripe 1, then A clears y and sets the count to 0 although x is in
        for (int i = 0; i < table.length; i++) {
            synchronized (stripes[i % STRIPES]) {
                table[i] = null;
            }
        }
        count.set(0);
    }

    private int bucket(K key) {
        return Math.floorMod(key.hashCode(), table.length);
    }

    private Object stripe(K key) {
        return stripes[bucket(key) % STRIPES];
    }

    private Node<K, V> find(K key) {
        Node<K, V> node = table[bucket(key)];
        while (node != null && !node.key.equals(key)) {
            node = node.next;
        }
        return node;
    }

    private V insert(K key, V value) {
        table[bucket(key)] = new Node<>(key, value, table[bucket(key)]);
        count.incrementAndGet();
        return value;
    }
}
