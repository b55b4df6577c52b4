// judged with: --public --infer
package com.example.fifth;

import java.util.ArrayList;
import java.util.List;
import java.util.concurrent.locks.Lock;
import java.util.concurrent.locks.ReentrantLock;
import java.util.function.BiConsumer;
import java.util.function.Function;

/** A cache in a sorted list; who walks along it takes the lock of a node before he leaves that of the one before. */
public class OrderedCache<K extends Comparable<? super K>, V> {

    private static final class Node<K, V> {
        final K key;
        final Lock lock = new ReentrantLock();
        V value;            // lock of this node
        Node<K, V> next;    // lock of this node

        Node(K key, V value, Node<K, V> next) {
            this.key = key;
            this.value = value;
            this.next = next;
        }
    }

    private final Node<K, V> head = new Node<>(null, null, null);

    public V get(K key) { // refused: alarm: (hard: lock coupling)
        Node<K, V> pred = lockBefore(key);
        try {
            Node<K, V> at = pred.next;
            return isAt(at, key) ? exchange(at, null) : null;
        } finally { pred.lock.unlock(); }
    }

    public V put(K key, V value) { // refused: alarm: (hard: lock coupling
        Node<K, V> pred = lockBefore(key);
        try {
            Node<K, V> at = pred.next;
            if (isAt(at, key)) return exchange(at, value);
            pred.next = new Node<>(key, value, at);
            return null;
        } finally { pred.lock.unlock(); }
    }

    public boolean remove(K key) { // refused: alarm: (hard: lock coupling
        Node<K, V> pred = lockBefore(key);
        try {
            Node<K, V> at = pred.next;
            if (!isAt(at, key)) return false;
            at.lock.lock();
            pred.next = at.next;
            at.lock.unlock();
            return true;
        } finally { pred.lock.unlock(); }
    }

    public V getOrCreate(K key, Function<? super K, ? extends V> maker) { // refused: fault: check-then-act over two walks
        V v = get(key);
        if (v == null) {
            v = maker.apply(key);
            put(key, v);
        }
        return v;
    }

    public List<K> keys() { // refused: alarm: (hard: lock coupling over the whole list
        List<K> keys = new ArrayList<>();
        Node<K, V> at = head;
        at.lock.lock();
        while (at.next != null) {
            at = step(at);
            keys.add(at.key);
        }
        at.lock.unlock();
        return keys;
    }

    public int size() { return keys().size(); } // refused: alarm: one call of keys(), rest local

    public K firstKey() { // accepted: data race on head.next (plain, read without the head's lock)
        Node<K, V> first = head.next;
        return first == null ? null : first.key;
    }

    public void forEach(BiConsumer<? super K, ? super V> action) { // refused: fault: keys and then a walk per key, with the action in between
        keys().forEach(k -> action.accept(k, get(k)));
    }

    public void clear() { // accepted
        head.lock.lock();
        head.next = null;
        head.lock.unlock();
    }

    private Node<K, V> lockBefore(K key) {
        Node<K, V> pred = head;
        pred.lock.lock();
        while (pred.next != null && pred.next.key.compareTo(key) < 0) pred = step(pred);
        return pred;
    }

    /** From a locked node to its successor, which is locked instead. */
    private Node<K, V> step(Node<K, V> from) {
        Node<K, V> to = from.next;
        to.lock.lock();
        from.lock.unlock();
        return to;
    }

    private boolean isAt(Node<K, V> n, K key) { return n != null && n.key.compareTo(key) == 0; }

    private V exchange(Node<K, V> n, V fresh) {
        n.lock.lock();
        V old = n.value;
        if (fresh != null) n.value = fresh;
        n.lock.unlock();
        return old;
    }
}
