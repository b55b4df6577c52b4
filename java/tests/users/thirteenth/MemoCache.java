// judged with: --public --infer
package com.example.thirteenth;

import java.util.Objects;
import java.util.Optional;
import java.util.concurrent.atomic.AtomicReferenceArray;
import java.util.function.Function;
import java.util.function.UnaryOperator;
import java.util.stream.IntStream;
import java.util.stream.Stream;

/** Cache of computed results: a fixed table of immutable chains. */
public class MemoCache<K, V> {

    private record Node<K, V>(K key, V value, Node<K, V> next) {

        Node<K, V> find(K wanted) {
            Node<K, V> n = this;
            while (n != null && !n.key.equals(wanted)) {
                n = n.next;
            }
            return n;
        }

        Node<K, V> without(K unwanted) {
            if (key.equals(unwanted)) return next;
            return next == null ? this : new Node<>(key, value, next.without(unwanted));
        }
    }

    public static final class Builder<K, V> {
        private int buckets = 64;

        public Builder<K, V> buckets(int buckets) { // accepted: one look at a field without its lock, which is told as a data race
            this.buckets = buckets;
            return this;
        }

        public MemoCache<K, V> build() { return new MemoCache<>(buckets); } // accepted: one look at a field without its lock, which is told as a data race
    }

    private final AtomicReferenceArray<Node<K, V>> table;

    private MemoCache(int buckets) {
        this.table = new AtomicReferenceArray<>(buckets);
    }

    public Optional<V> get(K key) { // accepted
        return valueIn(table.get(slot(key)), key);
    }

    public Optional<V> put(K key, V value) { // refused: alarm: the expert sees no interruption
        int slot = slot(key);
        while (true) {
            Node<K, V> head = table.get(slot);
            Node<K, V> rest = head == null ? null : head.without(key);
            if (table.compareAndSet(slot, head, new Node<>(key, value, rest))) {
                return valueIn(head, key);
            }
        }
    }

    /** Returns the value that is in the cache afterwards. */
    public V putIfAbsent(K key, V value) { // refused: alarm: the expert sees no interruption
        int slot = slot(key);
        while (true) {
            Node<K, V> head = table.get(slot);
            Optional<V> present = valueIn(head, key);
            if (present.isPresent()) return present.get();
            if (table.compareAndSet(slot, head, new Node<>(key, value, head))) return value;
        }
    }

    public Optional<V> remove(K key) { // refused: alarm: the expert sees no interruption
        int slot = slot(key);
        Node<K, V> head = table.get(slot);
        while (valueIn(head, key).isPresent()) {
            if (table.compareAndSet(slot, head, head.without(key))) {
                return valueIn(head, key);
            }
            head = table.get(slot);
        }
        return Optional.empty();
    }

    public V memoize(K key, Function<? super K, ? extends V> function) { // refused: alarm: the expert sees no interruption
        return get(key).orElseGet(() -> putIfAbsent(key, function.apply(key)));
    }

    public void refresh(K key, UnaryOperator<V> update) { // refused: fault: get, then put: T1 reads 5, T2 refreshes 5 to 6, T1 puts its own 6: one update lost; or T2 removes the key and T1 brings it back
        get(key).ifPresent(old -> put(key, update.apply(old)));
    }

    public boolean rename(K from, K to) { // refused: fault: remove and put are two actions: in between T2 finds the value neither under from nor under to
        Optional<V> value = remove(from);
        value.ifPresent(v -> put(to, v));
        return value.isPresent();
    }

    public long size() { // refused: fault: walks bucket after bucket without a snapshot: one entry in bucket 9; T1 passes bucket 0, T2 puts a into bucket 0 and then removes the one in bucket 9, T1 comes to 9 and answers 0, though there was always at least one
        return IntStream.range(0, table.length())
                .mapToObj(table::get)
                .flatMap(head -> Stream.iterate(head, Objects::nonNull, Node::next))
                .count();
    }

    public void clear() { // refused: fault: bucket after bucket: T2 sees a (bucket 0) gone and then still gets b (bucket 1); or puts a anew before b is cleared
        for (int i = 0; i < table.length(); i++) {
            table.set(i, null);
        }
    }

    private Optional<V> valueIn(Node<K, V> head, K key) {
        return Optional.ofNullable(head).map(h -> h.find(key)).map(Node::value);
    }

    private int slot(K key) {
        return Math.floorMod(key.hashCode(), table.length());
    }
}
