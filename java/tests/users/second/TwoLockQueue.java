// judged with: --public --infer
package com.example.second;

import java.util.*;
import java.util.concurrent.atomic.AtomicInteger;
import java.util.concurrent.locks.Condition;
import java.util.concurrent.locks.ReentrantLock;

/** Bounded queue with a lock for each end; head is a dummy. */
public class TwoLockQueue<T> {
    private static final class Node<T> {
        T item;
        Node<T> next;
        Node(T item) { this.item = item; }
    }

    private final int capacity;
    private final AtomicInteger count = new AtomicInteger();
    private final ReentrantLock takeLock = new ReentrantLock();
    private final ReentrantLock putLock = new ReentrantLock();
    private final Condition notEmpty = takeLock.newCondition();
    private Node<T> head = new Node<>(null);   // takeLock
    private Node<T> last = head;               // putLock

    public TwoLockQueue(int capacity) { this.capacity = capacity; }
    public boolean offer(T item) { // refused: alarm: the fullness read is final when it says full, and stable when not
        int before;
        putLock.lock();
        try {
            if (count.get() == capacity) return false;
            link(item);
            before = count.getAndIncrement();
        } finally { putLock.unlock(); }
        if (before == 0) signalNotEmpty();
        return true;
    }

    public boolean offerPair(T a, T b) { // refused: fault: count is raised twice and takers see each
        putLock.lock();
        try {
            if (count.get() > capacity - 2) return false;
            link(a);
            count.getAndIncrement();
            link(b);
            count.getAndIncrement();
        } finally { putLock.unlock(); }
        signalNotEmpty();
        return true;
    }

    public boolean offerAll(List<? extends T> items) { // refused: alarm: 
        putLock.lock();
        try {
            if (capacity - count.get() < items.size()) return false;
            items.forEach(this::link);
            count.getAndAdd(items.size());
        } finally { putLock.unlock(); }
        signalNotEmpty();
        return true;
    }

    public T poll() { // refused: alarm: count == 0 is decided by one read
        takeLock.lock();
        try { return count.get() == 0 ? null : unlink(); } finally { takeLock.unlock(); }
    }

    public T take() throws InterruptedException { // refused: alarm: the wait loop comes first, then as poll
        takeLock.lockInterruptibly();
        try {
            while (count.get() == 0) notEmpty.await();
            return unlink();
        } finally { takeLock.unlock(); }
    }

    public T peek() { // refused: alarm: count > 0 is stable under takeLock, the first node too
        takeLock.lock();
        try { return count.get() == 0 ? null : head.next.item; } finally { takeLock.unlock(); }
    }

    public boolean contains(Object o) { // accepted
        lockBoth();
        try {
            for (Node<T> n = head.next; n != null; n = n.next) if (n.item.equals(o)) return true;
            return false;
        } finally { unlockBoth(); }
    }

    public boolean addIfAbsent(T item) { return !contains(item) && offer(item); } // refused: fault: check-then-act
    public int drainTo(Collection<? super T> sink) { // refused: fault: one critical section per element
        int n = 0;
        for (T x; (x = poll()) != null; n++) sink.add(x);
        return n;
    }

    public void clear() { // accepted
        lockBoth();
        try {
            head = last = new Node<>(null);
            count.set(0);
        } finally { unlockBoth(); }
    }

    public int size() { return count.get(); } // accepted
    public boolean isCrowded() { return size() > capacity / 4 * 3; } // accepted
    public String summary() { return size() + " used, " + (capacity - size()) + " free"; } // refused: fault: count is read twice

    private void link(T item) { last = last.next = new Node<>(Objects.requireNonNull(item)); }
    private T unlink() {
        head = head.next;
        T x = head.item;
        head.item = null;
        if (count.getAndDecrement() > 1) notEmpty.signal();
        return x;
    }

    private void signalNotEmpty() {
        takeLock.lock();
        try { notEmpty.signal(); } finally { takeLock.unlock(); }
    }

    private void lockBoth() { putLock.lock(); takeLock.lock(); }
    private void unlockBoth() { takeLock.unlock(); putLock.unlock(); }
}
