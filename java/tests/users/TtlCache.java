package com.example.ttl;

import java.time.Clock;
import java.time.Duration;
import java.util.ArrayList;
import java.util.HashMap;
import java.util.List;
import java.util.Map;
import java.util.Optional;
import java.util.concurrent.atomic.LongAdder;
import java.util.concurrent.locks.StampedLock;
import java.util.function.BiConsumer;
import java.util.function.Function;
import java.util.stream.Collectors;

/** A cache whose entries grow old. They hang in a ring, the newest one first, and the oldest ones go where it is full. */
// judged with: --public --infer
public class TtlCache<K, V> {

    /** An entry of the ring. */
    private static final class Node<K, V> {
        private final K key;
        private V value;
        private long expires;
        private Node<K, V> before = this;
        private Node<K, V> after = this;

        private Node(K key, V value, long expires) {
            this.key = key;
            this.value = value;
            this.expires = expires;
        }

        private boolean isAlive(long now) {
            return now < expires;
        }

        private void unlink() {
            before.after = after;
            after.before = before;
        }

        private void linkBehind(Node<K, V> other) {
            before = other;
            after = other.after;
            after.before = this;
            other.after = this;
        }
    }

    private final StampedLock lock = new StampedLock();
    private final Map<K, Node<K, V>> index = new HashMap<>();
    private final Node<K, V> ring = new Node<>(null, null, Long.MAX_VALUE);
    private final LongAdder hits = new LongAdder();
    private final LongAdder misses = new LongAdder();
    private final Clock clock;
    private final long life;
    private final int most;

    public TtlCache(Clock clock, Duration life, int most) {
        this.clock = clock;
        this.life = life.toMillis();
        this.most = most;
    }

    public Optional<V> get(K key) { // accepted
        long stamp = lock.writeLock();
        try {
            var node = index.get(key);
            if (node == null || !node.isAlive(clock.millis())) {
                misses.increment();
                return Optional.empty();
            }
            node.unlink();
            node.linkBehind(ring);
            hits.increment();
            return Optional.of(node.value);
        } finally {
            lock.unlockWrite(stamp);
        }
    }

    public Optional<V> peek(K key) { // accepted
        long stamp = lock.readLock();
        try {
            long now = clock.millis();
            return Optional.ofNullable(index.get(key)).filter(node -> node.isAlive(now)).map(node -> node.value);
        } finally {
            lock.unlockRead(stamp);
        }
    }

    public void put(K key, V value) { // accepted
        long stamp = lock.writeLock();
        try {
            keep(key, value);
        } finally {
            lock.unlockWrite(stamp);
        }
    }

    private void keep(K key, V value) {
        long expires = clock.millis() + life;
        Node<K, V> node = index.computeIfAbsent(key, each -> {
            var made = new Node<K, V>(each, value, expires);
            made.linkBehind(ring);
            return made;
        });
        node.value = value;
        node.expires = expires;
        while (index.size() > most) {
            drop(ring.before);
        }
    }

    private V drop(Node<K, V> node) {
        index.remove(node.key);
        node.unlink();
        return node.value;
    }

    public Optional<V> remove(K key) { // accepted
        long stamp = lock.writeLock();
        try {
            return Optional.ofNullable(index.get(key)).map(this::drop);
        } finally {
            lock.unlockWrite(stamp);
        }
    }

    public V getOrLoad(K key, Function<? super K, ? extends V> loader) { // refused: fault: two regions, and the caller's function between them
        return get(key).orElseGet(() -> {
            V loaded = loader.apply(key);
            put(key, loaded);
            return loaded;
        });
    }

    public V compute(K key, Function<? super V, ? extends V> change) { // accepted
        long stamp = lock.writeLock();
        try {
            Node<K, V> node = index.get(key);
            V changed = change.apply(node == null ? null : node.value);
            keep(key, changed);
            return changed;
        } finally {
            lock.unlockWrite(stamp);
        }
    }

    public boolean swap(K one, K other) { // accepted
        long stamp = lock.writeLock();
        try {
            Node<K, V> left = index.get(one);
            Node<K, V> right = index.get(other);
            if (left == null || right == null) {
                return false;
            }
            V value = left.value;
            left.value = right.value;
            right.value = value;
            return true;
        } finally {
            lock.unlockWrite(stamp);
        }
    }

    public int purge() { // accepted
        long stamp = lock.writeLock();
        try {
            long now = clock.millis();
            int gone = 0;
            for (Node<K, V> node = ring.after; node != ring; node = node.after) {
                if (!node.isAlive(now)) {
                    drop(node);
                    gone++;
                }
            }
            return gone;
        } finally {
            lock.unlockWrite(stamp);
        }
    }

    public List<K> keysByAge() { // accepted
        var keys = new ArrayList<K>();
        long stamp = lock.readLock();
        try {
            for (Node<K, V> node = ring.after; node != ring; node = node.after) {
                keys.add(node.key);
            }
        } finally {
            lock.unlockRead(stamp);
        }
        return keys;
    }

    public Map<K, V> snapshot() { // accepted
        long stamp = lock.readLock();
        try {
            return index.values().stream().collect(Collectors.toMap(node -> node.key, node -> node.value));
        } finally {
            lock.unlockRead(stamp);
        }
    }

    public int size() { // accepted
        long stamp = lock.readLock();
        try {
            return index.size();
        } finally {
            lock.unlockRead(stamp);
        }
    }

    public boolean isEmpty() { // accepted
        return size() == 0;
    }

    public double hitRate() { // refused: fault: it looks at the cells of two sums
        long all = hits.sum() + misses.sum();
        return all == 0 ? 0 : 1.0 * hits.sum() / all;
    }

    public void forEach(BiConsumer<? super K, ? super V> action) { // accepted
        long stamp = lock.readLock();
        try {
            index.forEach((key, node) -> action.accept(key, node.value));
        } finally {
            lock.unlockRead(stamp);
        }
    }

    public void putAll(Map<? extends K, ? extends V> all) { // refused: fault: one region for each entry
        all.forEach(this::put);
    }

    public void clear() { // accepted
        long stamp = lock.writeLock();
        try {
            index.clear();
            ring.before = ring;
            ring.after = ring;
        } finally {
            lock.unlockWrite(stamp);
        }
    }
}
