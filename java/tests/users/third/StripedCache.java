// judged with: --public --infer
package com.example.third;

import java.util.*;
import java.util.concurrent.atomic.AtomicInteger;
import java.util.function.Function;
import java.util.function.UnaryOperator;

/** Hash cache with chained entries; one lock for each chain. */
public class StripedCache<K, V> {
    private static final class Entry<K, V> {
        final K key;
        V value;
        Entry<K, V> next;
        Entry(K key, V value, Entry<K, V> next) { this.key = key; this.value = value; this.next = next; }
    }

    private static final class Stripe<K, V> {
        Entry<K, V> first;

        Entry<K, V> find(Object key) {
            Entry<K, V> e = first;
            while (e != null && !e.key.equals(key)) e = e.next;
            return e;
        }

        boolean unlink(Entry<K, V> gone) {
            if (gone == null) return false;
            if (first == gone) { first = gone.next; return true; }
            Entry<K, V> e = first;
            while (e.next != gone) e = e.next;
            e.next = gone.next;
            return true;
        }
    }

    private final Stripe<K, V>[] stripes;
    private final AtomicInteger size = new AtomicInteger();

    @SuppressWarnings({"unchecked", "rawtypes"})
    public StripedCache(int n) {
        stripes = new Stripe[n];
        for (int i = 0; i < n; i++) stripes[i] = new Stripe<>();
    }

    public V get(K key) { // refused: alarm: one critical section of the key's stripe
        Stripe<K, V> s = stripes[index(key)];
        synchronized (s) {
            Entry<K, V> e = s.find(key);
            return e == null ? null : e.value;
        }
    }

    public V put(K key, V value) { return update(key, old -> value); } // refused: alarm: one call of update

    /** Stores f of the old value (or of null); returns the old value. */
    public V update(K key, UnaryOperator<V> f) { // refused: alarm: one critical section
        Stripe<K, V> s = stripes[index(key)];
        synchronized (s) {
            Entry<K, V> e = s.find(key);
            if (e == null) {
                s.first = new Entry<>(key, f.apply(null), s.first);
                size.incrementAndGet();
                return null;
            }
            V old = e.value;
            e.value = f.apply(old);
            return old;
        }
    }

    public V getOrCompute(K key, Function<? super K, ? extends V> f) { // refused: fault: update, then get in another critical section
        V old = update(key, v -> v != null ? v : f.apply(key));
        return old != null ? old : get(key);
    }

    public boolean remove(K key) { // refused: fault: size-- comes after the critical section
        Stripe<K, V> s = stripes[index(key)];
        boolean gone;
        synchronized (s) { gone = s.unlink(s.find(key)); }
        if (gone) size.decrementAndGet();
        return gone;
    }

    /** Gives the value of one key to another that has none. */
    public boolean rename(K from, K to) { // refused: alarm: both stripes are held
        int i = index(from), j = index(to);
        synchronized (stripes[Math.min(i, j)]) {
            synchronized (stripes[Math.max(i, j)]) {
                Entry<K, V> e = stripes[i].find(from);
                if (e == null || stripes[j].find(to) != null) return false;
                stripes[i].unlink(e);
                stripes[j].first = new Entry<>(to, e.value, stripes[j].first);
                return true;
            }
        }
    }

    public void swap(K a, K b) { put(b, put(a, get(b))); } // refused: fault: three critical sections

    public boolean containsValue(V v) { // refused: fault: the stripes are locked one by one
        for (Stripe<K, V> s : stripes) {
            synchronized (s) {
                for (Entry<K, V> e = s.first; e != null; e = e.next) if (Objects.equals(e.value, v)) return true;
            }
        }
        return false;
    }

    public Map<K, V> snapshot() { return copyFrom(0, new HashMap<>()); } // refused: alarm: the recursion holds all stripes when the last is read, and none is left before
    public int size() { return size.get(); } // accepted
    public double load() { return (double) size() / stripes.length; } // accepted

    private Map<K, V> copyFrom(int i, Map<K, V> out) {
        if (i == stripes.length) return out;
        synchronized (stripes[i]) {
            for (Entry<K, V> e = stripes[i].first; e != null; e = e.next) out.put(e.key, e.value);
            return copyFrom(i + 1, out);
        }
    }

    private int index(Object key) { return Math.floorMod(key.hashCode(), stripes.length); }
}
