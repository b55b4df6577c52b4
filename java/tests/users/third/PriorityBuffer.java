// judged with: --public --infer
package com.example.third;

import java.util.*;
import java.util.concurrent.atomic.AtomicLong;
import java.util.concurrent.locks.*;

/** Bounded blocking heap; the least element in the given order comes out first. */
public final class PriorityBuffer<E> {
    private static final AtomicLong IDS = new AtomicLong();
    private final long id = IDS.incrementAndGet();
    private final ReentrantLock lock = new ReentrantLock();
    private final Condition notEmpty = lock.newCondition(), notFull = lock.newCondition();
    private final Comparator<? super E> order;
    private final E[] heap;
    private int n, waiters;

    @SuppressWarnings("unchecked")
    public PriorityBuffer(int limit, Comparator<? super E> order) {
        this.heap = (E[]) new Object[limit];
        this.order = order;
    }

    public void put(E e) throws InterruptedException { // refused: fault: waiters++ comes before the await and others see it
        lock.lockInterruptibly();
        try {
            while (n == heap.length) {
                waiters++;
                try { notFull.await(); } finally { waiters--; }
            }
            push(e);
        } finally { lock.unlock(); }
    }

    public E take() throws InterruptedException { // accepted
        lock.lockInterruptibly();
        try {
            while (n == 0) notEmpty.await();
            return pop();
        } finally { lock.unlock(); }
    }

    public boolean tryOffer(E e) { // accepted
        if (!lock.tryLock()) return false;
        try { return n < heap.length && push(e); } finally { lock.unlock(); }
    }

    public E peek() { // accepted
        lock.lock();
        try { return heap[0]; } finally { lock.unlock(); }
    }

    public E exchange(E e) { // accepted
        lock.lock();
        try {
            if (n == 0 || order.compare(e, heap[0]) <= 0) return e;
            E least = heap[0];
            sink(0, e);
            return least;
        } finally { lock.unlock(); }
    }

    public E takeIf(E bound) throws InterruptedException { // refused: fault: peek, then take
        E least = peek();
        return least != null && order.compare(least, bound) < 0 ? take() : null;
    }

    public boolean moveOneTo(PriorityBuffer<E> other) { // accepted
        PriorityBuffer<E> a = id < other.id ? this : other, b = a == this ? other : this;
        a.lock.lock();
        b.lock.lock();
        try { return n > 0 && other.n < other.heap.length && other.push(pop()); }
        finally { b.lock.unlock(); a.lock.unlock(); }
    }

    public void moveAllTo(PriorityBuffer<? super E> other) throws InterruptedException { // refused: fault: this is drained, then each element put in its own critical section
        for (E e : drainSorted()) other.put(e);
    }

    public List<E> drainSorted() { // accepted
        List<E> out = new ArrayList<>();
        lock.lock();
        try { while (n > 0) out.add(pop()); } finally { lock.unlock(); }
        return out;
    }

    public List<E> sorted() { // accepted
        E[] copy;
        lock.lock();
        try { copy = Arrays.copyOf(heap, n); } finally { lock.unlock(); }
        Arrays.sort(copy, order);
        return Arrays.asList(copy);
    }

    public int waiters() { return waiters; } // refused: fault: one look at a field without its lock
    public int size() { return sorted().size(); } // refused: alarm: one critical section
    public int free() { return heap.length - size(); } // refused: alarm: one critical section

    private boolean push(E e) {
        int i = n++;
        for (; i > 0 && order.compare(e, heap[(i - 1) / 2]) < 0; i = (i - 1) / 2) heap[i] = heap[(i - 1) / 2];
        heap[i] = e;
        notEmpty.signal();
        return true;
    }

    private E pop() {
        E least = heap[0], moved = heap[--n];
        heap[n] = null;
        if (n > 0) sink(0, moved);
        notFull.signal();
        return least;
    }

    private void sink(int i, E e) {
        for (int c; (c = 2 * i + 1) < n; i = c) {
            if (c + 1 < n && order.compare(heap[c + 1], heap[c]) < 0) c++;
            if (order.compare(e, heap[c]) <= 0) break;
            heap[i] = heap[c];
        }
        heap[i] = e;
    }
}
