// judged with: --public --infer
package com.example.fourteenth;

import java.util.Collections;
import java.util.HashMap;
import java.util.Map;
import java.util.Set;
import java.util.function.BiConsumer;
import java.util.function.Function;

/**
 * Least-recently-used cache with its own linked list of nodes.
 */
public class LruPageCache<K, V> {

    private static final class Node<K, V> {
        final K key;
        V value;
        Node<K, V> prev;
        Node<K, V> next;

        Node(K key, V value) {
            this.key = key;
            this.value = value;
        }
    }

    private final Map<K, Node<K, V>> index = new HashMap<>();
    private final Node<K, V> anchor = new Node<>(null, null);
    private final BiConsumer<? super K, ? super V> onEvict;
    private int capacity;
    private long hits;
    private long misses;

    public LruPageCache(int capacity, BiConsumer<? super K, ? super V> onEvict) {
        this.capacity = capacity;
        this.onEvict = onEvict;
        anchor.prev = anchor;
        anchor.next = anchor;
    }

    public synchronized V get(K key) { // accepted
        Node<K, V> n = index.get(key);
        if (n == null) {
            misses++;
            return null;
        }
        hits++;
        unlink(n);
        linkFirst(n);
        return n.value;
    }

    public synchronized V put(K key, V value) { // accepted
        Node<K, V> n = index.get(key);
        if (n != null) {
            V old = n.value;
            n.value = value;
            unlink(n);
            linkFirst(n);
            return old;
        }
        n = new Node<>(key, value);
        index.put(key, n);
        linkFirst(n);
        trim();
        return null;
    }

    public V getOrLoad(K key, Function<? super K, ? extends V> loader) { // refused: fault: get and put are two regions with the loader between: another thread's put of the key is overwritten, or two threads load and return different values
        V value = get(key);
        if (value == null) {
            value = loader.apply(key);
            put(key, value);
        }
        return value;
    }

    public synchronized V remove(K key) { // accepted
        Node<K, V> n = index.remove(key);
        if (n == null) {
            return null;
        }
        unlink(n);
        return n.value;
    }

    public synchronized void resize(int newCapacity) { // accepted
        capacity = newCapacity;
        trim();
    }

    public double hitRatio() { // refused: fault: no lock: reads hits and misses, a get() increments hits, reads hits again: ratio of different moments, even above 1
        long lookups = hits + misses;
        return lookups == 0 ? 0.0 : (double) hits / lookups;
    }

    public synchronized Set<K> keys() { // refused: fault: leaks an unmodifiable but live view of index.keySet(): iteration outside the monitor races with put/remove
        return Collections.unmodifiableSet(index.keySet());
    }

    public synchronized int size() { // accepted
        return index.size();
    }

    private void trim() {
        while (index.size() > capacity) {
            Node<K, V> victim = anchor.prev;
            unlink(victim);
            index.remove(victim.key);
            onEvict.accept(victim.key, victim.value);
        }
    }

    private void linkFirst(Node<K, V> n) {
        n.next = anchor.next;
        n.prev = anchor;
        anchor.next.prev = n;
        anchor.next = n;
    }

    private void unlink(Node<K, V> n) {
        n.prev.next = n.next;
        n.next.prev = n.prev;
    }
}
