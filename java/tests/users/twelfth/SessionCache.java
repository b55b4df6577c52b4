// judged with: --public --infer
package com.example.twelfth;

import java.util.ArrayList;
import java.util.List;
import java.util.Optional;
import java.util.concurrent.atomic.AtomicInteger;
import java.util.function.BiConsumer;
import java.util.function.Function;
import java.util.function.LongSupplier;

/** Hash table of sessions with striped locks; a session dies after some idle time. */
public class SessionCache<K, V> {

  private static final class Node<K, V> {
    final K key;
    V value;
    long deadline;
    Node<K, V> next;

    Node(K key, Node<K, V> next) { this.key = key; this.next = next; }
  }

  private static final int STRIPES = 16;

  private final Object[] stripes = new Object[STRIPES];
  private final Node<K, V>[] buckets;
  private final AtomicInteger size = new AtomicInteger();
  private final LongSupplier clock;
  private final long ttl;
  private volatile long hits;

  @SuppressWarnings("unchecked")
  public SessionCache(long ttl, LongSupplier clock) {
    this.ttl = ttl;
    this.clock = clock;
    this.buckets = (Node<K, V>[]) new Node<?, ?>[STRIPES * 8];
    for (int i = 0; i < STRIPES; i++) stripes[i] = new Object();
  }

  public Optional<V> get(K key) { // refused: fault: hits++ on a volatile under the lock of one stripe only: two gets in different stripes both read 7 and both write 8 (the look-up itself is right; the unknown clock is called under the lock)
    synchronized (stripeOf(key)) {
      var node = find(key);
      if (node == null || node.deadline < clock.getAsLong()) return Optional.empty();
      hits++;
      return Optional.of(node.value);
    }
  }

  public void put(K key, V value) { // refused: alarm: the expert sees no interruption
    synchronized (stripeOf(key)) {
      var node = find(key);
      if (node == null) {
        node = buckets[bucketOf(key)] = new Node<>(key, buckets[bucketOf(key)]);
        size.incrementAndGet();
      }
      node.value = value;
      node.deadline = clock.getAsLong() + ttl;
    }
  }

  public boolean touch(K key) { // refused: alarm: the expert sees no interruption
    synchronized (stripeOf(key)) {
      var node = find(key);
      if (node == null) return false;
      node.deadline = clock.getAsLong() + ttl;
      return true;
    }
  }

  public V getOrCreate(K key, Function<? super K, ? extends V> factory) { // refused: fault: check-then-act over two regions: two threads miss, both create, the second put replaces the first's session, and they return different ones
    return get(key).orElseGet(() -> {
      V fresh = factory.apply(key);
      put(key, fresh);
      return fresh;
    });
  }

  public int purge() { // refused: fault: stripe after stripe: T2's size() sees 10, then 8, then 5 in between; with T2's put() meanwhile the returned difference is wrong, even negative
    int before = size.get();
    long now = clock.getAsLong();
    for (int i = 0; i < buckets.length; i++) {
      synchronized (stripes[i % STRIPES]) {
        Node<K, V> kept = null;
        for (var n = buckets[i]; n != null; n = n.next) {
          if (n.deadline < now) size.decrementAndGet();
          else { var copy = new Node<>(n.key, kept); copy.value = n.value; copy.deadline = n.deadline; kept = copy; }
        }
        buckets[i] = kept;
      }
    }
    return before - size.get();
  }

  public int size() { return size.get(); } // accepted

  public long hits() { return hits; } // accepted

  public List<K> keys() { // refused: fault: walks the chains without any lock: T1 passes bucket 0, T2 puts a into bucket 0 and then b into bucket 1, T1 sees b but not a; also a data race
    var keys = new ArrayList<K>();
    for (var bucket : buckets) for (var n = bucket; n != null; n = n.next) keys.add(n.key);
    return keys;
  }

  public void forEach(BiConsumer<? super K, ? super V> action) { // refused: alarm: the expert sees no interruption
    holdingAll(0, () -> {
      for (var b : buckets) for (var n = b; n != null; n = n.next) action.accept(n.key, n.value);
    });
  }

  private void holdingAll(int i, Runnable body) {
    if (i == STRIPES) { body.run(); return; }
    synchronized (stripes[i]) { holdingAll(i + 1, body); }
  }

  private Node<K, V> find(K key) {
    var n = buckets[bucketOf(key)];
    while (n != null && !n.key.equals(key)) n = n.next;
    return n;
  }

  private int bucketOf(K key) { return Math.floorMod(key.hashCode(), buckets.length); }

  private Object stripeOf(K key) { return stripes[bucketOf(key) % STRIPES]; }
}
