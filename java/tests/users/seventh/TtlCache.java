// judged with: --public --infer
package com.example.seventh;

import java.util.Arrays;
import java.util.HashMap;
import java.util.List;
import java.util.Map;
import java.util.Objects;
import java.util.concurrent.locks.ReadWriteLock;
import java.util.concurrent.locks.ReentrantReadWriteLock;
import java.util.function.Function;
import java.util.function.LongSupplier;
import java.util.function.Supplier;
import java.util.function.UnaryOperator;
import java.util.stream.Stream;

/** A cache with time to live over its own chained hash table. */
public class TtlCache<K, V> {

    private static class Node<K, V> {
        final K key;
        V value;
        long expiresAt;
        Node<K, V> next;

        Node(K key, Node<K, V> next) {
            this.key = key;
            this.next = next;
        }
    }

    private final ReadWriteLock lock = new ReentrantReadWriteLock();
    private final LongSupplier clock;
    private final long ttl;
    private Node<K, V>[] table = newTable();

    public TtlCache(long ttl, LongSupplier clock) {
        this.ttl = ttl;
        this.clock = clock;
    }

    public V get(K key) { // refused: alarm: one region, but values() gives a stream out that walks over the nodes later
        return reading(() -> live(key));
    }

    public void put(K key, V value) { // refused: alarm: one region, but values() gives a stream out that walks over the nodes later
        writing(() -> store(key, value));
    }

    public V computeIfAbsent(K key, Function<? super K, ? extends V> loader) { // refused: alarm: the region asks again
        V value = get(key);
        if (value != null) {
            return value;
        }
        return writing(() -> {
            V current = live(key);
            return current != null ? current : store(key, loader.apply(key));
        });
    }

    public V getOrCompute(K key, Function<? super K, ? extends V> loader) { // refused: fault: no second look: get finds nothing, another thread's getOrCompute(k) stores and returns y, the first stores and returns x: two callers hold different values
        V value = get(key);
        if (value == null) {
            value = loader.apply(key);
            put(key, value);
        }
        return value;
    }

    public boolean replace(K key, UnaryOperator<V> operator) { // refused: fault: read and write are separate regions: two threads replace(k, n -> n+1) from 1 and both write 2 (lost update)
        V value = get(key);
        if (value == null) {
            return false;
        }
        put(key, operator.apply(value));
        return true;
    }

    public boolean remove(K key) { // refused: alarm: one region, but values() gives a stream out that walks over the nodes later
        return writing(() -> unlink(key));
    }

    public boolean remove(K key, V expected) { // refused: alarm: one region, but values() gives a stream out that walks over the nodes later
        return writing(() -> Objects.equals(live(key), expected) && unlink(key));
    }

    public int purgeExpired() { // refused: fault: the keys are collected in one region and removed in another without a new test: another thread's put(k,v) renews k in between, the fresh entry is removed and a following get(k) finds nothing
        long now = clock.getAsLong();
        List<K> expired = reading(() -> nodes().filter(n -> n.expiresAt <= now).map(n -> n.key).toList());
        return (int) expired.stream().filter(this::remove).count();
    }

    public void clear() { // accepted
        lock.writeLock().lock();
        try {
            table = newTable();
        } finally {
            lock.writeLock().unlock();
        }
    }

    public Map<K, V> snapshot() { // refused: alarm: one region, but values() gives a stream out that walks over the nodes later
        return reading(() -> {
            Map<K, V> copy = new HashMap<>();
            nodes().forEach(n -> copy.put(n.key, n.value));
            return copy;
        });
    }

    public Stream<V> values() { // accepted: the call runs nothing; the walk comes later, and the races of the nodes are told
        return reading(() -> nodes().map(n -> n.value));
    }

    private <R> R reading(Supplier<R> action) {
        lock.readLock().lock();
        try {
            return action.get();
        } finally {
            lock.readLock().unlock();
        }
    }

    private <R> R writing(Supplier<R> action) {
        lock.writeLock().lock();
        try {
            return action.get();
        } finally {
            lock.writeLock().unlock();
        }
    }

    private Stream<Node<K, V>> nodes() {
        return Arrays.stream(table).flatMap(h -> Stream.iterate(h, Objects::nonNull, n -> n.next));
    }

    private Node<K, V> find(K key) {
        Node<K, V> n = table[slot(key)];
        while (n != null && !n.key.equals(key)) {
            n = n.next;
        }
        return n;
    }

    private V live(K key) {
        Node<K, V> n = find(key);
        return n != null && n.expiresAt > clock.getAsLong() ? n.value : null;
    }

    private V store(K key, V value) {
        Node<K, V> n = find(key);
        boolean fresh = n == null;
        if (fresh) {
            n = new Node<>(key, table[slot(key)]);
        }
        n.value = value;
        n.expiresAt = clock.getAsLong() + ttl;
        if (fresh) {
            table[slot(key)] = n;
        }
        return value;
    }

    private boolean unlink(K key) {
        Node<K, V> found = find(key);
        if (found == null) {
            return false;
        }
        Node<K, V> n = table[slot(key)];
        if (n == found) {
            table[slot(key)] = found.next;
            return true;
        }
        while (n.next != found) {
            n = n.next;
        }
        n.next = found.next;
        return true;
    }

    private static int slot(Object key) {
        return key.hashCode() & 63;
    }

    @SuppressWarnings("unchecked")
    private static <K, V> Node<K, V>[] newTable() {
        return (Node<K, V>[]) new Node<?, ?>[64];
    }
}
