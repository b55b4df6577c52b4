// judged with: --public --infer
package com.example.eighteenth;

import java.util.Collection;
import java.util.Optional;
import java.util.concurrent.atomic.AtomicInteger;
import java.util.concurrent.locks.Condition;
import java.util.concurrent.locks.ReentrantLock;
import java.util.function.Predicate;

/** Linked queue of incoming orders; gateways add at the tail, the matcher takes from the head. */
public class OrderInbox<T> {

    private static class Link<T> {
        T item;
        Link<T> next;
    }

    private final int capacity;
    private final AtomicInteger count = new AtomicInteger();
    private final ReentrantLock takeLock = new ReentrantLock();
    private final ReentrantLock putLock = new ReentrantLock();
    private final Condition notEmpty = takeLock.newCondition();
    private Link<T> head = new Link<>();
    private Link<T> last = head;

    public OrderInbox(int capacity) {
        this.capacity = capacity;
    }

    public boolean submit(T order) { // refused: alarm: the link is made under the put lock and becomes an order of the queue with count.getAndIncrement (only the culprit contains() sees it earlier); a false is right at the read of count; the wake-up after it changes no state
        int before;
        putLock.lock();
        try {
            if (count.get() == capacity) {
                return false;
            }
            Link<T> link = new Link<>();
            link.item = order;
            last = last.next = link;
            before = count.getAndIncrement();
        } finally {
            putLock.unlock();
        }
        if (before == 0) {
            wakeTaker();
        }
        return true;
    }

    public T take() throws InterruptedException { // refused: alarm: one region of the take lock; the effect is at count.getAndDecrement, no other correct method sees the unlinked head before
        takeLock.lockInterruptibly();
        try {
            while (count.get() == 0) {
                notEmpty.await();
            }
            T order = unlinkFirst();
            if (count.getAndDecrement() > 1) {
                notEmpty.signal();
            }
            return order;
        } finally {
            takeLock.unlock();
        }
    }

    public Optional<T> poll() { // refused: alarm: one region of the take lock; an empty is right at the read of count
        takeLock.lock();
        try {
            if (count.get() == 0) {
                return Optional.empty();
            }
            T order = unlinkFirst();
            count.getAndDecrement();
            return Optional.of(order);
        } finally {
            takeLock.unlock();
        }
    }

    /** Moves what is there into the target. */
    public int drainTo(Collection<? super T> target) { // refused: fault: one poll after the other, with an alien add between: A takes order 1, B polls order 2, A takes order 3
        int moved = 0;
        for (Optional<T> order = poll(); order.isPresent(); order = poll()) {
            target.add(order.get());
            moved++;
        }
        return moved;
    }

    public boolean contains(Predicate<? super T> test) { // refused: fault: holds only the take lock while submit links under the put lock: A finds an order that B has linked but not counted (size() still 0, poll() still empty), without happens-before even a null item; predicate called under the lock
        takeLock.lock();
        try {
            for (Link<T> link = head.next; link != null; link = link.next) {
                if (test.test(link.item)) {
                    return true;
                }
            }
            return false;
        } finally {
            takeLock.unlock();
        }
    }

    public int clear() { // refused: alarm: both locks are held
        putLock.lock();
        takeLock.lock();
        try {
            head = last;
            head.item = null;
            return count.getAndSet(0);
        } finally {
            takeLock.unlock();
            putLock.unlock();
        }
    }

    public int size() { // accepted
        return count.get();
    }

    private T unlinkFirst() {
        head = head.next;
        T order = head.item;
        head.item = null;
        return order;
    }

    private void wakeTaker() {
        takeLock.lock();
        try {
            notEmpty.signal();
        } finally {
            takeLock.unlock();
        }
    }
}
