package com.example.cache;

import java.util.concurrent.atomic.AtomicLong;
import java.util.function.Function;

/** A cache with a table of its own, chains of nodes, and a time after which each of them is out of date. */
// judged with: --public --infer
public class ExpiringCache<K, V> {

    private static final class Node<K, V> {
        final K key;
        final int hash;
        V value;
        long deadline;
        Node<K, V> next;

        Node(K key, int hash, V value, long deadline, Node<K, V> next) {
            this.key = key;
            this.hash = hash;
            this.value = value;
            this.deadline = deadline;
            this.next = next;
        }
    }

    private final AtomicLong hits = new AtomicLong();
    private final AtomicLong misses = new AtomicLong();
    private final long lifetime;
    private Node<K, V>[] table;
    private int size;

    @SuppressWarnings("unchecked")
    public ExpiringCache(int buckets, long lifetime) {
        this.lifetime = lifetime;
        table = (Node<K, V>[]) new Node[buckets];
    }

    private int index(int hash) {
        return (hash & 0x7fffffff) % table.length;
    }

    private Node<K, V> find(Object key) {
        int hash = key.hashCode();
        for (Node<K, V> node = table[index(hash)]; node != null; node = node.next) {
            if (node.hash == hash && node.key.equals(key)) {
                return node;
            }
        }
        return null;
    }

    public synchronized V put(K key, V value) { // accepted
        long deadline = System.nanoTime() + lifetime;
        Node<K, V> found = find(key);
        if (found != null) {
            V old = found.value;
            found.value = value;
            found.deadline = deadline;
            return old;
        }
        if (size >= 2 * table.length) {
            grow();
        }
        int at = index(key.hashCode());
        table[at] = new Node<>(key, key.hashCode(), value, deadline, table[at]);
        size++;
        return null;
    }

    @SuppressWarnings("unchecked")
    private void grow() {
        Node<K, V>[] before = table;
        table = (Node<K, V>[]) new Node[2 * before.length + 1];
        for (Node<K, V> first : before) {
            for (Node<K, V> node = first; node != null; ) {
                Node<K, V> next = node.next;
                int at = index(node.hash);
                node.next = table[at];
                table[at] = node;
                node = next;
            }
        }
    }

    public synchronized V peek(K key) { // accepted
        Node<K, V> found = find(key);
        return found == null || found.deadline < System.nanoTime() ? null : found.value;
    }

    public V get(K key) { // refused: fault: the counters are counted behind the region
        V value;
        synchronized (this) {
            Node<K, V> found = find(key);
            value = found == null || found.deadline < System.nanoTime() ? null : found.value;
        }
        (value == null ? misses : hits).incrementAndGet();
        return value;
    }

    public V get(K key, Function<? super K, ? extends V> loader) { // refused: fault: a look and a step, and the loader between them
        V value = peek(key);
        if (value == null) {
            value = loader.apply(key);
            put(key, value);
        }
        return value;
    }

    public synchronized V remove(K key) { // accepted
        int hash = key.hashCode();
        Node<K, V> before = null;
        for (Node<K, V> node = table[index(hash)]; node != null; before = node, node = node.next) {
            if (node.hash == hash && node.key.equals(key)) {
                if (before == null) {
                    table[index(hash)] = node.next;
                } else {
                    before.next = node.next;
                }
                size--;
                return node.value;
            }
        }
        return null;
    }

    public synchronized int expire() { // accepted
        long now = System.nanoTime();
        int dropped = 0;
        for (int k = 0; k < table.length; k++) {
            Node<K, V> kept = null;
            for (Node<K, V> node = table[k]; node != null; ) {
                Node<K, V> next = node.next;
                if (node.deadline >= now) {
                    node.next = kept;
                    kept = node;
                } else {
                    dropped++;
                }
                node = next;
            }
            table[k] = kept;
        }
        size -= dropped;
        return dropped;
    }

    public synchronized void clear() { // accepted
        for (int k = 0; k < table.length; k++) {
            table[k] = null;
        }
        size = 0;
    }

    public synchronized int size() { // accepted
        return size;
    }

    public double hitRate() { // refused: fault: two counters, one after the other
        long found = hits.get();
        long all = found + misses.get();
        return all == 0 ? 0 : (double) found / all;
    }

    public long hits() { // accepted
        return hits.get();
    }
}
