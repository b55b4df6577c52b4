// judged with: --public --infer
package com.example.first;

import java.util.Collection;
import java.util.List;
import java.util.Objects;

/** Fixed size FIFO for any number of producers and consumers; array backed, monitor style. */
public class BlockingRing<E> {
    private final Object[] items;
    private int head;
    private int tail;
    private int count;
    private boolean closed;

    public BlockingRing(int capacity) {
        if (capacity <= 0) throw new IllegalArgumentException("capacity " + capacity);
        items = new Object[capacity];
    }

    public synchronized void put(E e) throws InterruptedException { // accepted
        while (isFull() && !closed) wait();
        if (closed) throw new IllegalStateException("closed");
        insert(e);
    }

    public synchronized E take() throws InterruptedException { // accepted
        while (count == 0) {
            if (closed) return null;
            wait();
        }
        return extract();
    }

    public boolean offer(E e) { // accepted
        synchronized (this) {
            if (closed || isFull()) return false;
            insert(e);
            return true;
        }
    }

    public synchronized E poll(long millis) throws InterruptedException { // accepted
        final long deadline = System.currentTimeMillis() + millis;
        while (count == 0 && !closed) {
            long left = deadline - System.currentTimeMillis();
            if (left <= 0) return null;
            wait(left);
        }
        return count == 0 ? null : extract();
    }

    public void putAll(Collection<? extends E> es) throws InterruptedException { // refused: fault: one critical section per element
        for (E e : es) put(e);
    }

    /** Adds e; when there's no room the oldest element makes way and is returned. */
    public E force(E e) throws InterruptedException { // refused: fault: check-then-act over three critical sections
        E dropped = null;
        if (isFull()) {
            dropped = poll(0);
        }
        offer(e);
        return dropped;
    }

    /** Hands over e and waits until the consumers have emptied the ring. */
    public synchronized void putAndFlush(E e) throws InterruptedException { // refused: fault: e is put
        put(e);
        while (count > 0) wait();
    }

    public synchronized int drainTo(List<? super E> sink) { // accepted
        final int n = count;
        while (count > 0) sink.add(extract());
        return n;
    }

    public boolean contains(Object o) { // accepted
        for (Object x : toArray()) {
            if (x.equals(o)) return true;
        }
        return false;
    }

    public synchronized Object[] toArray() { // accepted
        Object[] copy = new Object[count];
        for (int i = 0, j = head; i < count; i++, j = next(j)) {
            copy[i] = items[j];
        }
        return copy;
    }

    public synchronized boolean isFull() { return count == items.length; } // accepted
    public boolean isClosed() { return closed; } // refused: fault: one look at a field without its lock

    public int capacity() { return items.length; } // accepted

    public synchronized void close() { // accepted
        closed = true;
        notifyAll();
    }

    private int next(int i) { return i + 1 == items.length ? 0 : i + 1; }

    private void insert(E e) {
        items[tail] = Objects.requireNonNull(e);
        tail = next(tail);
        count++;
        notifyAll();
    }

    @SuppressWarnings("unchecked")
    private E extract() {
        E e = (E) items[head];
        items[head] = null;
        head = next(head);
        count--;
        notifyAll();
        return e;
    }
}
