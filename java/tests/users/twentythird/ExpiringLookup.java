// judged with: --public --infer
package com.example.twentythird;

import java.util.ArrayList;
import java.util.List;
import java.util.Map;
import java.util.Optional;
import java.util.concurrent.atomic.AtomicInteger;
import java.util.function.Function;

/** Hash table with a time to live per entry. Built with {@link Builder}. */
public class ExpiringLookup<K, V> {
    private static final class Node<K, V> implements Map.Entry<K, V> {
        private final K key;
        private V value;
        private long deadline;
        private Node<K, V> next;

        private Node(K key, Node<K, V> next) {
            this.key = key;
            this.next = next;
        }

        @Override public K getKey() { return key; } // accepted
        @Override public V getValue() { return value; } // accepted: fault: one look at the plain value without the stripe's lock (callers reach it through find)
        @Override public V setValue(V value) { throw new UnsupportedOperationException(); } // accepted
    }

    public static final class Builder {
        private int stripes = 16;
        private long ttl = 60_000;

        public Builder stripes(int stripes) { // accepted: fault: one write of a plain field; a builder is meant for one thread
            this.stripes = stripes;
            return this;
        }

        public Builder ttlMillis(long ttl) { // refused: fault: one write of a plain field; a builder is meant for one thread
            this.ttl = ttl;
            return this;
        }

        public <K, V> ExpiringLookup<K, V> build() { return new ExpiringLookup<>(this); } // refused: doubtful: reads two plain fields one after the other, so a builder shared by threads gives a mix; but a builder is meant for one thread
    }

    private final Object[] locks;
    private final Node<K, V>[] heads;
    private final AtomicInteger count = new AtomicInteger();
    private final long ttl;

    @SuppressWarnings("unchecked")
    private ExpiringLookup(Builder b) {
        locks = new Object[b.stripes];
        heads = (Node<K, V>[]) new Node<?, ?>[locks.length];
        for (int i = 0; i < locks.length; i++) locks[i] = new Object();
        ttl = b.ttl;
    }

    public Optional<V> get(K key) { // refused: fault: finds the node under the lock, but looks at the plain value after the lock has gone (a single look, so any value it gives was current at some moment of the call)
        return find(key).map(Map.Entry::getValue);
    }

    public Optional<Map.Entry<K, V>> find(K key) { // refused: fault: the live private node leaves the lock as an Entry: the caller sees getValue() change under B's put, or sees a removed node
        int s = stripe(key);
        synchronized (locks[s]) {
            return Optional.ofNullable(live(s, key));
        }
    }

    public Optional<V> put(K key, V value) { // refused: alarm: one region under the stripe's lock (count is changed inside it)
        int s = stripe(key);
        synchronized (locks[s]) {
            return Optional.ofNullable(store(s, key, value));
        }
    }

    public V computeIfAbsent(K key, Function<? super K, ? extends V> maker) { // refused: alarm: one region under the stripe's lock as far as the own state goes; calls the alien maker while it holds the lock
        int s = stripe(key);
        synchronized (locks[s]) {
            Node<K, V> n = live(s, key);
            if (n != null) return n.value;
            V made = maker.apply(key);
            store(s, key, made);
            return made;
        }
    }

    public boolean replace(K key, V expected, V update) { // refused: fault: check-then-act: A and B both see the expected value, both put, both return true
        if (get(key).filter(expected::equals).isEmpty()) return false;
        put(key, update);
        return true;
    }

    public void clear() { // refused: fault: stripe by stripe (and the count one by one): A has cleared stripe 0, B puts in stripe 0 and finds an old entry in stripe 1 still there; also size() shows numbers in between
        for (int s = 0; s < heads.length; s++) {
            synchronized (locks[s]) {
                for (Node<K, V> n = heads[s]; n != null; n = n.next) count.decrementAndGet();
                heads[s] = null;
            }
        }
    }

    public List<K> keys() { // refused: fault: walks all chains without any lock: A has passed stripe 0, B puts k0 there and then k1 in stripe 1, A lists k1 but not k0
        List<K> result = new ArrayList<>(count.get());
        for (Node<K, V> head : heads) {
            for (Node<K, V> n = head; n != null; n = n.next) result.add(n.key);
        }
        return result;
    }

    public int size() { // accepted
        return count.get();
    }

    private int stripe(K key) {
        return Math.floorMod(key.hashCode(), heads.length);
    }

    private Node<K, V> chained(int s, K key) {
        Node<K, V> n = heads[s];
        while (n != null && !n.key.equals(key)) n = n.next;
        return n;
    }

    private Node<K, V> live(int s, K key) {
        Node<K, V> n = chained(s, key);
        return n != null && n.deadline > System.currentTimeMillis() ? n : null;
    }

    private V store(int s, K key, V value) {
        Node<K, V> n = chained(s, key);
        if (n == null) {
            heads[s] = n = new Node<>(key, heads[s]);
            count.incrementAndGet();
        }
        V old = n.value;
        n.value = value;
        n.deadline = System.currentTimeMillis() + ttl;
        return old;
    }
}
