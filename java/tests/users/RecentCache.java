package com.example.recent;

import java.util.HashMap;
import java.util.LinkedHashMap;
import java.util.Map;
import java.util.Objects;
import java.util.concurrent.locks.ReadWriteLock;
import java.util.concurrent.locks.ReentrantReadWriteLock;
import java.util.function.BiConsumer;
import java.util.function.Function;

/** A cache that forgets what wasn't used for longest: a map of nodes, which also stand in a ring in the order of use. */
// judged with: --public --infer
public class RecentCache<K, V> {

    /** A key and its value, between the one that was used after it and the one before. */
    private class Node {
        final K key;
        V value;
        int uses;
        Node newer;
        Node older;

        Node(K key, V value) {
            this.key = key;
            this.value = value;
        }

        void unlink() {
            newer.older = older;
            older.newer = newer;
        }
    }

    private final ReadWriteLock lock = new ReentrantReadWriteLock();
    private final Map<K, Node> nodes = new HashMap<>();
    private final Node ring;
    private final int capacity;

    public RecentCache(int capacity) {
        if (capacity < 1) {
            throw new IllegalArgumentException("capacity " + capacity);
        }
        this.capacity = capacity;
        ring = new Node(null, null);
        ring.newer = ring;
        ring.older = ring;
    }

    private void link(Node node) {
        node.older = ring;
        node.newer = ring.newer;
        ring.newer.older = node;
        ring.newer = node;
    }

    public V get(K key) { // refused: alarm: touch() takes the lock from the uses, which are counted under the writers' lock here
        lock.writeLock().lock();
        try {
            Node node = nodes.get(key);
            if (node == null) {
                return null;
            }
            node.unlink();
            link(node);
            node.uses++;
            return node.value;
        } finally {
            lock.writeLock().unlock();
        }
    }

    public V peek(K key) { // accepted
        lock.readLock().lock();
        try {
            Node node = nodes.get(key);
            return node == null ? null : node.value;
        } finally {
            lock.readLock().unlock();
        }
    }

    public V touch(K key) { // refused: fault: it counts, and holds the lock of readers alone
        lock.readLock().lock();
        try {
            Node node = nodes.get(key);
            if (node != null) {
                node.uses++;
            }
            return node == null ? null : node.value;
        } finally {
            lock.readLock().unlock();
        }
    }

    public V put(K key, V value) { // accepted
        Objects.requireNonNull(key, "key");
        lock.writeLock().lock();
        try {
            Node known = nodes.get(key);
            if (known != null) {
                V old = known.value;
                known.value = value;
                known.unlink();
                link(known);
                return old;
            }
            Node node = new Node(key, value);
            nodes.put(key, node);
            link(node);
            while (nodes.size() > capacity) {
                evict();
            }
            return null;
        } finally {
            lock.writeLock().unlock();
        }
    }

    private void evict() {
        Node oldest = ring.older;
        oldest.unlink();
        nodes.remove(oldest.key);
    }

    public V computeIfAbsent(K key, Function<? super K, ? extends V> make) { // refused: fault: a look and a step, and the function between them
        V found = get(key);
        if (found == null) {
            found = make.apply(key);
            put(key, found);
        }
        return found;
    }

    public int size() { // accepted
        lock.readLock().lock();
        try {
            return nodes.size();
        } finally {
            lock.readLock().unlock();
        }
    }

    public boolean isFull() { // accepted
        return size() >= capacity;
    }

    public Map<K, V> snapshot() { // accepted
        lock.readLock().lock();
        try {
            Map<K, V> copy = new LinkedHashMap<>();
            for (Node node = ring.newer; node != ring; node = node.newer) {
                copy.put(node.key, node.value);
            }
            return copy;
        } finally {
            lock.readLock().unlock();
        }
    }

    public void forEach(BiConsumer<? super K, ? super V> action) { // refused: fault: the function is run behind the region, for one entry after the other
        snapshot().forEach(action);
    }

    public void removeAll(Iterable<? extends K> keys) { // refused: fault: one region for each key
        for (K key : keys) {
            remove(key);
        }
    }

    public V remove(K key) { // accepted
        lock.writeLock().lock();
        try {
            Node node = nodes.remove(key);
            if (node == null) {
                return null;
            }
            node.unlink();
            return node.value;
        } finally {
            lock.writeLock().unlock();
        }
    }

    public void clear() { // accepted
        lock.writeLock().lock();
        try {
            nodes.clear();
            ring.newer = ring;
            ring.older = ring;
        } finally {
            lock.writeLock().unlock();
        }
    }
}
