// judged with: --public --infer
package com.example.ninth;

import java.util.ArrayList;
import java.util.Collection;
import java.util.List;
import java.util.Objects;
import java.util.Optional;
import java.util.concurrent.locks.Condition;
import java.util.concurrent.locks.ReentrantLock;

/** Bounded hand-over buffer between request threads and dispatchers. */
public final class DispatchQueue<T> {
    private static final class Node<T> {
        final T item;
        Node<T> next;

        Node(T item) { this.item = item; }
    }

    private final ReentrantLock lock = new ReentrantLock();
    private final Condition notEmpty = lock.newCondition();
    private final Condition notFull = lock.newCondition();
    private final int limit;
    private Node<T> head;
    private Node<T> tail;
    private int count;
    private boolean closed;

    public DispatchQueue(int limit) { this.limit = limit; }

    public void submit(T item) throws InterruptedException { // accepted
        Objects.requireNonNull(item);
        lock.lockInterruptibly();
        try {
            while (count == limit && !closed) notFull.await();
            if (closed) throw new IllegalStateException("closed");
            link(item);
            notEmpty.signal();
        } finally { lock.unlock(); }
    }

    public T take() throws InterruptedException { // accepted
        lock.lockInterruptibly();
        try {
            while (count == 0) {
                if (closed) return null;
                notEmpty.await();
            }
            return unlink();
        } finally { lock.unlock(); }
    }

    public boolean tryOffer(T item) { // accepted: while another thread holds the lock in poll() or snapshot(), tryLock fails and tryOffer returns false although the queue was open and empty all the time; alone it always returns true there (if a failing tryLock counts as allowed, nothing else is wrong with it)
        if (!lock.tryLock()) return false;
        try {
            if (closed || count == limit) return false;
            link(Objects.requireNonNull(item));
            notEmpty.signal();
            return true;
        } finally { lock.unlock(); }
    }

    public Optional<T> poll() { // accepted
        lock.lock();
        try {
            return count == 0 ? Optional.empty() : Optional.of(unlink());
        } finally { lock.unlock(); }
    }

    public int drainTo(Collection<? super T> sink) { // refused: fault: queue [a,b]: this takes a, a second drainTo takes b, so both return 1; in any order of whole calls one returns 2 and the other 0
        int moved = 0;
        for (Optional<T> next = poll(); next.isPresent(); next = poll()) {
            sink.add(next.get());
            moved++;
        }
        return moved;
    }

    public boolean contains(T item) { return snapshot().contains(item); } // accepted

    public boolean submitIfAbsent(T item) throws InterruptedException { // refused: fault: two submitIfAbsent(x) both see contains false and both submit: both return true and snapshot() shows x twice
        if (contains(item)) return false;
        submit(item);
        return true;
    }

    public List<T> snapshot() { // accepted
        lock.lock();
        try {
            List<T> copy = new ArrayList<>(count);
            for (Node<T> n = head; n != null; n = n.next) copy.add(n.item);
            return copy;
        } finally { lock.unlock(); }
    }

    public int remaining() { return limit - snapshot().size(); } // accepted

    public boolean isClosed() { return closed; } // refused: fault: one look at a field without its lock

    public void close() { // accepted
        lock.lock();
        try { closed = true; notEmpty.signalAll(); notFull.signalAll(); } finally { lock.unlock(); }
    }

    private void link(T item) {
        Node<T> n = new Node<>(item);
        if (tail == null) head = n; else tail.next = n;
        tail = n;
        count++;
    }

    private T unlink() {
        T item = head.item;
        head = head.next;
        if (head == null) tail = null;
        count--;
        notFull.signal();
        return item;
    }
}
