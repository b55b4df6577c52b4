// judged with: --public --infer
package com.example.fifth;

import java.util.ArrayList;
import java.util.List;
import java.util.concurrent.atomic.AtomicInteger;
import java.util.concurrent.locks.Condition;
import java.util.concurrent.locks.ReentrantLock;

/** A bounded linked queue with one lock for its head and one for its tail. */
public class TwoLockQueue<E> {

    private static final class Node<E> {
        E item;
        Node<E> next;
        Node(E item) { this.item = item; }
    }

    private final int capacity;
    private final AtomicInteger count = new AtomicInteger();
    private final ReentrantLock takeLock = new ReentrantLock();
    private final Condition notEmpty = takeLock.newCondition();
    private final ReentrantLock putLock = new ReentrantLock();
    private final Condition notFull = putLock.newCondition();
    private Node<E> head = new Node<>(null);    // takeLock; its item is always null
    private Node<E> last = head;                // putLock

    public TwoLockQueue(int capacity) { this.capacity = capacity; }

    public void put(E e) throws InterruptedException { // refused: alarm: behind its wait (hard): with the putLock held count can only fall, so "there's room" stays true
        int before;
        putLock.lockInterruptibly();
        try {
            while (count.get() == capacity) notFull.await();
            before = enqueue(e);
        } finally { putLock.unlock(); }
        if (before == 0) wake(takeLock, notEmpty);
    }

    public boolean offer(E e) { // refused: alarm: (hard): the early `return false` is one read of count
        if (count.get() == capacity) return false;
        int before = -1;
        putLock.lock();
        try {
            if (count.get() < capacity) before = enqueue(e);
        } finally { putLock.unlock(); }
        if (before == 0) wake(takeLock, notEmpty);
        return before >= 0;
    }

    public boolean offerIfAbsent(E e) { return !contains(e) && offer(e); } // refused: fault: check-then-act over two critical sections

    public E take() throws InterruptedException { // refused: alarm: behind its wait (hard): with the takeLock held count can only rise
        E e;
        boolean wasFull;
        takeLock.lockInterruptibly();
        try {
            while (count.get() == 0) notEmpty.await();
            e = unlinkFirst();
            int before = count.getAndDecrement();
            if (before > 1) notEmpty.signal();
            wasFull = before == capacity;
        } finally { takeLock.unlock(); }
        if (wasFull) wake(putLock, notFull);
        return e;
    }

    public E peek() { // refused: alarm: (hard): under the takeLock "count > 0" stays true and head.next is fixed, so the moment is the read of count
        takeLock.lock();
        try {
            return count.get() == 0 ? null : head.next.item;
        } finally { takeLock.unlock(); }
    }

    public int size() { return count.get(); } // accepted

    public int room() { return capacity - count.get(); } // accepted

    public String state() { // refused: fault: reads count twice
        return count.get() == 0 ? "empty" : count.get() == capacity ? "full" : "partly filled";
    }

    public boolean contains(Object o) { return toList().contains(o); } // accepted

    public List<E> toList() { // accepted
        putLock.lock();
        takeLock.lock();
        try {
            List<E> items = new ArrayList<>();
            for (Node<E> n = head.next; n != null; n = n.next) items.add(n.item);
            return items;
        } finally {
            takeLock.unlock();
            putLock.unlock();
        }
    }

    /** Moves everything into the other queue. */
    public void moveTo(TwoLockQueue<? super E> other) throws InterruptedException { // refused: fault: one element at a time, check-then-act, take/put may wait
        while (size() > 0) other.put(take());
    }

    private int enqueue(E e) {
        last = last.next = new Node<>(e);
        int before = count.getAndIncrement();
        if (before + 1 < capacity) notFull.signal();
        return before;
    }

    private E unlinkFirst() {
        head = head.next;
        E e = head.item;
        head.item = null;
        return e;
    }

    private static void wake(ReentrantLock lock, Condition c) {
        lock.lock();
        try { c.signal(); } finally { lock.unlock(); }
    }
}
