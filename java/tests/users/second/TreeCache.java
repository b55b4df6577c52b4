// judged with: --public --infer
package com.example.second;

import java.util.*;
import java.util.concurrent.locks.*;
import java.util.function.*;

/** Cache ordered by key: a plain binary search tree under a read-write lock. */
public class TreeCache<K extends Comparable<? super K>, V> {
    private class Node {
        final K key;
        V value;
        Node left, right;
        Node(K key, V value) { this.key = key; this.value = value; size++; }
    }

    private final ReadWriteLock rw = new ReentrantReadWriteLock();
    private final Lock r = rw.readLock(), w = rw.writeLock();
    private Node root;
    private int size;
    private long lookups;

    public V get(K key) { // refused: fault: data race on lookups: a plain lookups++ under the *read* lock, which others hold at the same time
        r.lock();
        try {
            lookups++;
            return valueOf(find(key));
        } finally { r.unlock(); }
    }

    public V peek(K key) { return reading(() -> valueOf(find(key))); } // accepted

    public void put(K key, V value) { // accepted
        w.lock();
        try { root = insert(root, key, value); } finally { w.unlock(); }
    }

    public V putIfAbsent(K key, V value) { // refused: fault: check-then-act
        V old = peek(key);
        if (old == null) put(key, value);
        return old;
    }

    public V computeIfAbsent(K key, Function<? super K, ? extends V> f) { // refused: alarm: a hit is one read section that decides
        V v = peek(key);
        if (v != null) return v;
        w.lock();
        try {
            v = valueOf(find(key));
            if (v == null) put(key, v = f.apply(key));
            return v;
        } finally { w.unlock(); }
    }

    /** Puts and tells the number of entries just after it; downgrades to the read lock. */
    public int putAndCount(K key, V value) { // refused: alarm: the read lock is taken before the write lock is left
        w.lock();
        try { root = insert(root, key, value); r.lock(); } finally { w.unlock(); }
        try { return size; } finally { r.unlock(); }
    }

    public K firstKey() { // accepted
        r.lock();
        try {
            Node n = root;
            while (n != null && n.left != null) n = n.left;
            return n == null ? null : n.key;
        } finally { r.unlock(); }
    }

    public void removeFirst() { // accepted
        w.lock();
        try { if (root != null) root = withoutFirst(root); } finally { w.unlock(); }
    }
    public void evictTo(int max) { while (size() > max) removeFirst(); } // refused: fault: two critical sections per turn

    public List<K> range(K lo, K hi) { // accepted
        List<K> out = new ArrayList<>();
        return reading(() -> collect(root, lo, hi, out));
    }

    public int size() { return reading(() -> size); } // accepted
    public int height() { return reading(() -> height(root)); } // accepted
    public String shape() { return size() + " entries, height " + height(); } // refused: fault: two critical sections
    public long lookups() { return lookups; } // refused: fault: data race on lookups

    private <T> T reading(Supplier<T> query) {
        r.lock();
        try { return query.get(); } finally { r.unlock(); }
    }

    private V valueOf(Node n) { return n == null ? null : n.value; }
    private int height(Node n) { return n == null ? 0 : 1 + Math.max(height(n.left), height(n.right)); }
    private Node find(K key) {
        Node n = root;
        for (int c; n != null && (c = key.compareTo(n.key)) != 0; ) n = c < 0 ? n.left : n.right;
        return n;
    }

    private Node insert(Node n, K key, V value) {
        if (n == null) return new Node(key, value);
        int c = key.compareTo(n.key);
        if (c < 0) n.left = insert(n.left, key, value);
        else if (c > 0) n.right = insert(n.right, key, value);
        else n.value = value;
        return n;
    }

    private Node withoutFirst(Node n) {
        if (n.left == null) { size--; return n.right; }
        n.left = withoutFirst(n.left);
        return n;
    }

    private List<K> collect(Node n, K lo, K hi, List<K> out) {
        if (n == null) return out;
        if (lo.compareTo(n.key) < 0) collect(n.left, lo, hi, out);
        if (lo.compareTo(n.key) <= 0 && hi.compareTo(n.key) >= 0) out.add(n.key);
        if (hi.compareTo(n.key) > 0) collect(n.right, lo, hi, out);
        return out;
    }
}
