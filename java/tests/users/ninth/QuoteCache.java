// judged with: --public --infer
package com.example.ninth;

import java.util.HashMap;
import java.util.Map;
import java.util.Objects;
import java.util.Optional;
import java.util.concurrent.CompletableFuture;
import java.util.concurrent.ConcurrentHashMap;
import java.util.concurrent.ConcurrentMap;
import java.util.concurrent.Executor;
import java.util.function.Function;

/** Cache of quotes with expiry; the loader is a pure function of the key or a remote read. */
public final class QuoteCache<K, V> {
    private static final class Slot<V> {
        final V value;
        final long expiresAt;
        final int version;
        volatile int hits;

        Slot(V value, long expiresAt, int version) {
            this.value = value;
            this.expiresAt = expiresAt;
            this.version = version;
        }
    }

    private final ConcurrentMap<K, Slot<V>> slots = new ConcurrentHashMap<>();
    private final ConcurrentMap<K, CompletableFuture<V>> pending = new ConcurrentHashMap<>();
    private final Function<? super K, ? extends V> loader;
    private final Executor executor;
    private final long ttl;

    public QuoteCache(Function<? super K, ? extends V> loader, Executor executor, long ttl) {
        this.loader = loader;
        this.executor = executor;
        this.ttl = ttl;
    }

    public V get(K key, long now) { // refused: alarm: the expert sees no interruption
        return slots.computeIfAbsent(key, k -> new Slot<>(loader.apply(k), now + ttl, 1)).value;
    }

    public V getOrLoad(K key, long now) { // refused: fault: invalidate(k) between put and get: slots.get returns null, NullPointerException, which no order of whole calls gives (also two getOrLoad load twice, and an older value overwrites a refresh)
        if (!slots.containsKey(key)) {
            slots.put(key, new Slot<>(loader.apply(key), now + ttl, 1));
        }
        return slots.get(key).value;
    }

    public Optional<V> peek(K key) { // accepted
        return Optional.ofNullable(slots.get(key)).map(s -> s.value);
    }

    public Optional<V> touch(K key) { // refused: fault: two touch(k) both read hits 0 and write 1: hits(k) gives 1 after two touches that both found the entry
        Slot<V> slot = slots.get(key);
        if (slot == null) return Optional.empty();
        slot.hits++;
        return Optional.of(slot.value);
    }

    public int hits(K key) { // refused: fault: hits(a) has found the slot (0 hits); another thread runs rename(a,b) and then touch(b): the read gives 1, but hits(a) is 0 before the rename and 0 after it
        Slot<V> slot = slots.get(key);
        return slot == null ? 0 : slot.hits;
    }

    public int refresh(K key, long now) { // refused: alarm: the expert sees no interruption
        return slots.compute(key, (k, old) ->
                new Slot<>(loader.apply(k), now + ttl, old == null ? 1 : old.version + 1)).version;
    }

    public boolean replaceIf(K key, V expected, V fresh, long now) { // refused: alarm: the expert sees no interruption
        boolean[] done = {false};
        slots.computeIfPresent(key, (k, old) -> {
            if (!Objects.equals(old.value, expected)) return old;
            done[0] = true;
            return new Slot<>(fresh, now + ttl, old.version + 1);
        });
        return done[0];
    }

    public boolean invalidate(K key) { // accepted
        return slots.remove(key) != null;
    }

    public boolean rename(K from, K to) { // refused: fault: between remove and put, peek(from) and then peek(to) of another thread are both empty
        Slot<V> slot = slots.remove(from);
        if (slot == null) return false;
        slots.put(to, slot);
        return true;
    }

    public int evictExpired(long now) { // refused: fault: two expired entries, two evictExpired remove one each and both return 1; in whole calls 2 and 0
        int gone = 0;
        for (Map.Entry<K, Slot<V>> e : slots.entrySet()) {
            if (e.getValue().expiresAt <= now && slots.remove(e.getKey(), e.getValue())) gone++;
        }
        return gone;
    }

    public Map<K, V> asMap() { // refused: fault: the walk has passed the place of a; another thread runs refresh(a) and then refresh(b), both new: the copy has b without a
        Map<K, V> copy = new HashMap<>();
        slots.forEach((k, s) -> copy.put(k, s.value));
        return copy;
    }

    public CompletableFuture<V> getAsync(K key) { // refused: alarm: the expert sees no interruption
        return pending.computeIfAbsent(key, k -> CompletableFuture.supplyAsync(() -> loader.apply(k), executor));
    }

    public boolean cancelAsync(K key) { // refused: fault: two cancelAsync(k) both get the unfinished future, both return true; in whole calls the second returns false (or it removes a newer future of getAsync)
        CompletableFuture<V> f = pending.get(key);
        if (f == null || f.isDone()) return false;
        f.cancel(true);
        pending.remove(key);
        return true;
    }
}
