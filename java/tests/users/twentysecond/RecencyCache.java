// judged with: --public --infer
package com.example.twentysecond;

import java.util.ArrayList;
import java.util.HashMap;
import java.util.List;
import java.util.Map;
import java.util.Optional;
import java.util.concurrent.atomic.AtomicLong;
import java.util.concurrent.locks.ReadWriteLock;
import java.util.concurrent.locks.ReentrantReadWriteLock;
import java.util.function.BiPredicate;
import java.util.function.Function;

/** Least-recently-used cache with its own linked nodes. */
public class RecencyCache<K, V> {
    private static final class Node<K, V> {
        final K key;
        V value;
        Node<K, V> prev = this;
        Node<K, V> next = this;

        Node(K key, V value) {
            this.key = key;
            this.value = value;
        }
    }

    private final ReadWriteLock rw = new ReentrantReadWriteLock();
    private final Map<K, Node<K, V>> index = new HashMap<>();
    private final Node<K, V> anchor = new Node<>(null, null);
    private final AtomicLong hits = new AtomicLong();
    private final AtomicLong misses = new AtomicLong();
    private final int capacity;

    public RecencyCache(int capacity) {
        this.capacity = capacity;
    }

    public Optional<V> get(K key) { // refused: fault: moves the node in the list under the read lock only: A and B get k1 and k2 at once, both relink anchor.next, a node is lost from the list
        rw.readLock().lock();
        try {
            Node<K, V> node = index.get(key);
            if (node == null) {
                misses.incrementAndGet();
                return Optional.empty();
            }
            hits.incrementAndGet();
            unlink(node);
            linkFirst(node);
            return Optional.of(node.value);
        } finally {
            rw.readLock().unlock();
        }
    }

    /** Like {@link #get} but without an effect on the order or the counters. */
    public Optional<V> peek(K key) { // accepted
        rw.readLock().lock();
        try {
            return Optional.ofNullable(index.get(key)).map(n -> n.value);
        } finally {
            rw.readLock().unlock();
        }
    }

    public Optional<V> put(K key, V value) { // accepted
        rw.writeLock().lock();
        try {
            Node<K, V> node = index.get(key);
            V old = null;
            if (node != null) {
                old = node.value;
                node.value = value;
                unlink(node);
            } else {
                if (index.size() >= capacity) drop(anchor.prev);
                node = new Node<>(key, value);
                index.put(key, node);
            }
            linkFirst(node);
            return Optional.ofNullable(old);
        } finally {
            rw.writeLock().unlock();
        }
    }

    public V getOrLoad(K key, Function<? super K, ? extends V> loader) { // refused: fault: check-then-act in two regions: A misses, B puts (k,v2), A puts its v1 over it and returns v1; run alone it would return v2, or B's v2 would stay
        Optional<V> cached = peek(key);
        if (cached.isPresent()) return cached.get();
        V loaded = loader.apply(key);
        put(key, loaded);
        return loaded;
    }

    public void evictIf(BiPredicate<? super K, ? super V> condition) { // accepted
        rw.writeLock().lock();
        try {
            for (Node<K, V> n = anchor.next; n != anchor; n = n.next) {
                if (condition.test(n.key, n.value)) drop(n);
            }
        } finally {
            rw.writeLock().unlock();
        }
    }

    public List<K> keysByRecency() { // accepted: fault: walks the links under the read lock while a get() of B relinks under the read lock too: A sits at n, B moves n to the front, A lists keys twice (or misses some)
        rw.readLock().lock();
        try {
            List<K> keys = new ArrayList<>(index.size());
            for (Node<K, V> n = anchor.next; n != anchor; n = n.next) keys.add(n.key);
            return keys;
        } finally {
            rw.readLock().unlock();
        }
    }

    public double hitRatio() { // refused: fault: two atomics read one after the other: from 1 hit, 1 miss: A reads hits 1, B has a hit and then a miss, A reads misses 2: A gives 1/3, but the ratio was 1/2, 2/3, 1/2
        long h = hits.get();
        long total = h + misses.get();
        return total == 0 ? 0.0 : (double) h / total;
    }

    public int size() { // refused: fault: HashMap.size() is one look at a plain int, without the lock
        return index.size();
    }

    private void linkFirst(Node<K, V> n) {
        n.prev = anchor;
        n.next = anchor.next;
        anchor.next.prev = n;
        anchor.next = n;
    }

    private void unlink(Node<K, V> n) {
        n.prev.next = n.next;
        n.next.prev = n.prev;
    }

    private void drop(Node<K, V> n) {
        unlink(n);
        index.remove(n.key);
    }
}
