// judged with: --public --infer
package com.example.eighth;

import java.util.Iterator;
import java.util.LinkedHashSet;
import java.util.NoSuchElementException;
import java.util.Set;
import java.util.concurrent.atomic.LongAdder;
import java.util.function.Function;
import java.util.function.UnaryOperator;

/** Readers walk an immutable chain from one volatile head; writers replace the head. */
public class SnapshotCache<K, V> implements Iterable<V> {

    private static final class Node<K, V> {
        final K key;
        final V value;
        final Node<K, V> next;

        Node(K key, V value, Node<K, V> next) {
            this.key = key;
            this.value = value;
            this.next = next;
        }

        Node<K, V> without(Object unwanted) {
            if (key.equals(unwanted)) {
                return next;
            }
            Node<K, V> rest = next == null ? null : next.without(unwanted);
            return rest == next ? this : new Node<>(key, value, rest);
        }
    }

    private volatile Node<K, V> head;
    private final LongAdder hits = new LongAdder();

    public V get(K key) { // accepted
        for (Node<K, V> n = head; n != null; n = n.next) {
            if (n.key.equals(key)) {
                return n.value;
            }
        }
        return null;
    }

    /** Like get, but counted. */
    public V lookup(K key) { // refused: fault: the read of head and the counter are two steps: lookup(k) has found k, another thread does remove(k) and then reads hits() 0, then the hit is counted and the value returned: it found k, so it came before remove, but then hits() had to be 1
        V value = get(key);
        if (value != null) {
            hits.increment();
        }
        return value;
    }

    public long hits() { // accepted
        return hits.sum();
    }

    public synchronized void put(K key, V value) { // accepted
        Node<K, V> rest = head == null ? null : head.without(key);
        head = new Node<>(key, value, rest);
    }

    public synchronized boolean remove(K key) { // accepted
        Node<K, V> before = head;
        head = before == null ? null : before.without(key);
        return head != before;
    }

    public V getOrLoad(K key, Function<? super K, ? extends V> loader) { // refused: fault: get and put are separate: two threads miss, load x and y and both put: two callers hold different values (in every order the second gets the first one's value)
        V cached = get(key);
        if (cached != null) {
            return cached;
        }
        V loaded = loader.apply(key);
        put(key, loaded);
        return loaded;
    }

    public V computeIfAbsent(K key, Function<? super K, ? extends V> loader) { // refused: alarm: the region asks again
        V cached = get(key);
        if (cached == null) {
            synchronized (this) {
                cached = get(key);
                if (cached == null) {
                    cached = loader.apply(key);
                    put(key, cached);
                }
            }
        }
        return cached;
    }

    public synchronized boolean update(K key, UnaryOperator<V> change) { // accepted
        V old = get(key);
        if (old == null) {
            return false;
        }
        put(key, change.apply(old));
        return true;
    }

    public boolean promote(K key) { // refused: fault: between remove and put another thread's get(k) is null, although promote only moves it
        V value = get(key);
        if (value == null || !remove(key)) {
            return false;
        }
        put(key, value);
        return true;
    }

    public synchronized void rename(K oldKey, K newKey) { // refused: fault: although synchronized, it writes the volatile head twice and readers take no lock: between the two another thread's keys() has neither the old key nor the new one
        V value = get(oldKey);
        if (value != null && remove(oldKey)) {
            put(newKey, value);
        }
    }

    public V newest() { // refused: fault: two reads of the volatile head: not null at first, another thread's clear() runs, head.value: NullPointerException
        return head == null ? null : head.value;
    }

    public Set<K> keys() { // accepted
        Set<K> keys = new LinkedHashSet<>();
        for (Node<K, V> n = head; n != null; n = n.next) {
            keys.add(n.key);
        }
        return keys;
    }

    public int size() { // accepted
        return keys().size();
    }

    public synchronized void clear() { // accepted
        head = null;
    }

    @Override
    public Iterator<V> iterator() { // accepted
        return new Iterator<>() {
            private Node<K, V> next = head;

            @Override
            public boolean hasNext() {
                return next != null;
            }

            @Override
            public V next() {
                if (next == null) {
                    throw new NoSuchElementException();
                }
                V value = next.value;
                next = next.next;
                return value;
            }
        };
    }
}
