package com.example.treecache;

import java.util.ArrayDeque;
import java.util.ArrayList;
import java.util.Deque;
import java.util.List;
import java.util.Optional;
import java.util.function.BinaryOperator;
import java.util.function.Supplier;

/** A cache as a search tree of nodes; the oldest entries stand in a list, and go first. */
// judged with: --public --infer
public class TreeCache<K extends Comparable<K>, V> {

    /** What is kept for a key. */
    private static final class Node<K, V> {
        private final K key;
        private V value;
        private Node<K, V> left;
        private Node<K, V> right;
        private long used;

        private Node(K key, V value) {
            this.key = key;
            this.value = value;
        }

        private Node<K, V> least() {
            var each = this;
            while (each.left != null) {
                each = each.left;
            }
            return each;
        }
    }

    /** How the cache did. */
    public static class Figures {
        private long hits;
        private long misses;

        synchronized void count(boolean hit) {
            if (hit) {
                hits++;
            } else {
                misses++;
            }
        }

        public synchronized double share() { // accepted
            return hits + misses == 0 ? 0 : (double) hits / (hits + misses);
        }

        public long calls() { // refused: fault: it looks at both without the lock
            return hits + misses;
        }
    }

    private final Object guard = new Object();
    private final Figures figures = new Figures();
    private final int most;
    private Node<K, V> root;
    private int size;
    private long clock;

    public TreeCache(int most) {
        this.most = most;
    }

    public Figures figures() { // accepted
        return figures;
    }

    public Optional<V> find(K key) { // accepted
        synchronized (guard) {
            var node = search(key);
            if (node != null) {
                node.used = ++clock;
            }
            return Optional.ofNullable(node).map(each -> each.value);
        }
    }

    public Optional<V> findAndCount(K key) { // accepted
        synchronized (guard) {
            var found = find(key);
            figures.count(found.isPresent());
            return found;
        }
    }

    private Node<K, V> search(K key) {
        var each = root;
        while (each != null) {
            int order = key.compareTo(each.key);
            if (order == 0) {
                return each;
            }
            each = order < 0 ? each.left : each.right;
        }
        return null;
    }

    public void put(K key, V value) { // accepted: the look without the lock is refused in its place
        synchronized (guard) {
            root = put(root, key, value);
            if (size > most) {
                root = remove(root, oldest().key);
            }
        }
    }

    private Node<K, V> put(Node<K, V> at, K key, V value) {
        if (at == null) {
            size++;
            var made = new Node<K, V>(key, value);
            made.used = ++clock;
            return made;
        }
        int order = key.compareTo(at.key);
        if (order < 0) {
            at.left = put(at.left, key, value);
        } else if (order > 0) {
            at.right = put(at.right, key, value);
        } else {
            at.value = value;
        }
        return at;
    }

    private Node<K, V> oldest() {
        Deque<Node<K, V>> next = new ArrayDeque<>(List.of(root));
        var found = root;
        while (!next.isEmpty()) {
            var each = next.pop();
            found = each.used < found.used ? each : found;
            if (each.left != null) {
                next.push(each.left);
            }
            if (each.right != null) {
                next.push(each.right);
            }
        }
        return found;
    }

    private Node<K, V> remove(Node<K, V> at, K key) {
        if (at == null) {
            return null;
        }
        int order = key.compareTo(at.key);
        if (order < 0) {
            at.left = remove(at.left, key);
            return at;
        } else if (order > 0) {
            at.right = remove(at.right, key);
            return at;
        }
        size--;
        if (at.left == null || at.right == null) {
            return at.left == null ? at.right : at.left;
        }
        at.right.least().left = at.left;
        return at.right;
    }

    public V get(K key, Supplier<? extends V> make) { // refused: fault: two regions, and the caller's function between them
        return find(key).orElseGet(() -> {
            V made = make.get();
            put(key, made);
            return made;
        });
    }

    public V merge(K key, V value, BinaryOperator<V> merge) { // accepted
        synchronized (guard) {
            var known = search(key);
            V merged = known == null ? value : merge.apply(known.value, value);
            put(key, merged);
            return merged;
        }
    }

    public boolean forget(K key) { // accepted
        synchronized (guard) {
            int before = size;
            root = remove(root, key);
            return size < before;
        }
    }

    public void forgetAll(Iterable<? extends K> keys) { // refused: fault: one region for each key
        keys.forEach(this::forget);
    }

    public int size() { // refused: fault: one look at a field without its lock
        return size;
    }

    public List<K> keys() { // accepted
        var keys = new ArrayList<K>();
        synchronized (guard) {
            collect(root, keys);
        }
        return keys;
    }

    private void collect(Node<K, V> at, List<? super K> keys) {
        if (at != null) {
            collect(at.left, keys);
            keys.add(at.key);
            collect(at.right, keys);
        }
    }

    public void clear() { // accepted
        synchronized (guard) {
            root = null;
            size = 0;
        }
    }
}
