// judged with: --public --infer
package com.example.eleventh;

import java.util.HashMap;
import java.util.Map;
import java.util.Optional;
import java.util.concurrent.atomic.AtomicLong;
import java.util.concurrent.locks.ReadWriteLock;
import java.util.concurrent.locks.ReentrantReadWriteLock;
import java.util.function.Function;

/** Cache of rendered map tiles, least recently used first out. */
public class GeoTileCache {

    public record TileKey(int zoom, int x, int y) {
        public TileKey parent() { return new TileKey(zoom - 1, x >> 1, y >> 1); } // accepted
    }

    private static final class Node {
        final TileKey key;
        byte[] image;
        Node before = this, after = this;

        Node(TileKey key, byte[] image) { this.key = key; this.image = image; }
    }

    private final Map<TileKey, Node> index = new HashMap<>();
    private final Node ring = new Node(null, new byte[0]);
    private final ReadWriteLock lock = new ReentrantReadWriteLock();
    private final AtomicLong lookups = new AtomicLong();
    private final AtomicLong loads = new AtomicLong();
    private final int capacity;

    public GeoTileCache(int capacity) { this.capacity = capacity; }

    public Optional<byte[]> get(TileKey key) { // refused: fault: relinks the recency ring under the READ lock: two threads in get() of two keys interleave unlink/linkFirst and lose nodes or leave a corrupt ring
        lock.readLock().lock();
        try {
            Node node = index.get(key);
            if (node == null) return Optional.empty();
            unlink(node);
            linkFirst(node);
            return Optional.of(node.image.clone());
        } finally {
            lock.readLock().unlock();
        }
    }

    public void put(TileKey key, byte[] image) { // refused: alarm: the expert sees no interruption
        byte[] copy = image.clone();
        lock.writeLock().lock();
        try {
            Node node = index.get(key);
            if (node == null) {
                index.put(key, node = new Node(key, copy));
            } else {
                node.image = copy;
                unlink(node);
            }
            linkFirst(node);
            if (index.size() > capacity) drop(ring.before);
        } finally {
            lock.writeLock().unlock();
        }
    }

    public byte[] load(TileKey key, Function<TileKey, byte[]> renderer) { // refused: fault: get, render, put are separate regions: two threads both miss and both render; or T1 renders an old tile, T2 puts a newer one, T1's put overwrites it though its look-up came before; the counters lookups and loads also move apart
        lookups.incrementAndGet();
        Optional<byte[]> hit = get(key);
        if (hit.isPresent()) return hit.get();
        byte[] image = renderer.apply(key);
        loads.incrementAndGet();
        put(key, image);
        return image;
    }

    /** The tile itself or, failing that, the nearest cached ancestor. */
    public Optional<TileKey> nearest(TileKey key) { // accepted
        lock.readLock().lock();
        try {
            for (TileKey k = key; k.zoom() >= 0; k = k.parent()) {
                if (index.containsKey(k)) return Optional.of(k);
            }
            return Optional.empty();
        } finally {
            lock.readLock().unlock();
        }
    }

    public int invalidateZoom(int zoom) { // refused: alarm: the expert sees no interruption
        lock.writeLock().lock();
        try {
            int before = index.size();
            for (Node n = ring.after; n != ring; n = n.after) {
                if (n.key.zoom() == zoom) drop(n);
            }
            return before - index.size();
        } finally {
            lock.writeLock().unlock();
        }
    }

    public double missRatio() { // refused: fault: two atomics read one after the other: T1 reads lookups=1, T2 and T3 load two tiles, T1 reads loads=2: ratio 2.0, which was never so
        long n = lookups.get();
        return n == 0 ? 0.0 : (double) loads.get() / n;
    }

    private void drop(Node node) {
        index.remove(node.key);
        unlink(node);
    }

    private void linkFirst(Node node) {
        node.after = ring.after;
        node.before = ring;
        ring.after.before = node;
        ring.after = node;
    }

    private static void unlink(Node node) {
        node.before.after = node.after;
        node.after.before = node.before;
    }
}
