// judged with: --public --infer
package com.example.tenth;

import java.util.ArrayList;
import java.util.Iterator;
import java.util.List;
import java.util.NoSuchElementException;

/** Hand-made hash table with a limit, used as cache since the first release. */
public class ChainTable<K, V> {
    public interface Maker<K, V> { V make(K key); }

    private static class Cell<K, V> {
        final K key;
        V val;
        Cell<K, V> next;

        Cell(K key, V val, Cell<K, V> next) {
            this.key = key;
            this.val = val;
            this.next = next;
        }
    }

    private class KeyWalker implements Iterator<K> {
        private int bucket = -1;
        private Cell<K, V> at;
        public boolean hasNext() { // refused: fault: the walk goes over the live chains without their lock
            while (at == null && bucket + 1 < cells.length) at = cells[++bucket];
            return at != null;
        }

        public K next() { // refused: fault: the walk goes over the live chains without their lock
            if (!hasNext()) throw new NoSuchElementException();
            K k = at.key;
            at = at.next;
            return k;
        }
    }

    private final Cell<K, V>[] cells;
    private final int limit;
    private int size, hits, misses;

    @SuppressWarnings({"unchecked", "rawtypes"})
    public ChainTable(int buckets, int limit) {
        cells = (Cell<K, V>[]) new Cell[buckets];
        this.limit = limit;
    }

    public synchronized V fetch(K key) { // accepted
        Cell<K, V> c = lookup(key);
        if (c == null) { misses++; return null; }
        hits++;
        return c.val;
    }

    public synchronized boolean store(K key, V val) { // accepted
        Cell<K, V> c = lookup(key);
        if (c != null) {
            c.val = val;
            return true;
        }
        if (size >= limit) return false;
        int i = index(key);
        cells[i] = new Cell<K, V>(key, val, cells[i]);
        size++;
        return true;
    }

    public synchronized boolean drop(K key) { // accepted
        Cell<K, V> prev = null;
        for (Cell<K, V> c = cells[index(key)]; c != null; prev = c, c = c.next) {
            if (c.key.equals(key)) {
                if (prev == null) cells[index(key)] = c.next; else prev.next = c.next;
                size--;
                return true;
            }
        }
        return false;
    }

    public V fetchOrMake(K key, Maker<K, V> maker) { // refused: fault: two fetchOrMake(k) both fetch null and make v1 and v2: one returns v1, the other v2; in whole calls the second returns what the first stored
        V v = fetch(key);
        if (v == null) store(key, v = maker.make(key));
        return v;
    }

    public V peek(K key) { // refused: fault: a race on cells, next and val are read without the lock (a new cell may be seen with val still null; with sequentially consistent reads I find no wrong outcome, as cells enter only in front and an unlinked cell keeps its next)
        Cell<K, V> c = lookup(key);
        return c == null ? null : c.val;
    }

    public synchronized int size() { return size; } // accepted

    public boolean isFull() { return size() >= limit; } // accepted

    public float hitRatio() { // refused: fault: hits 1, misses 1: reads hits 1, another thread runs a fetch that hits and then one that misses (2 and 2), reads misses 2: ratio 1/3; whole calls see 1/2, 2/3, 1/2 (also racy: hits, misses)
        int h = hits, m = misses;
        return h + m == 0 ? 0f : (float) h / (h + m);
    }

    public Iterator<K> keys() { return new KeyWalker(); } // refused: fault: the returned iterator walks the live chains without lock: it has passed bucket 0, another thread runs store(a) into bucket 0 and then store(b) into bucket 3, the walk gives b without a (the call itself only makes the iterator)

    public synchronized List<K> keyList() { // refused: alarm: the expert sees no interruption
        List<K> list = new ArrayList<K>(size);
        for (Iterator<K> it = keys(); it.hasNext();) list.add(it.next());
        return list;
    }

    public void storeAll(ChainTable<K, V> other) { // refused: fault: other.keyList() has k, then other.drop(k) in another thread, other.peek(k) is null and null is stored under k; no order of whole calls stores that
        for (K k : other.keyList()) store(k, other.peek(k));
    }

    private int index(K key) { return (key.hashCode() & 0x7fffffff) % cells.length; }

    private Cell<K, V> lookup(K key) { // refused: fault: a caller holds no lock
        Cell<K, V> c = cells[index(key)];
        while (c != null && !c.key.equals(key)) c = c.next;
        return c;
    }
}
