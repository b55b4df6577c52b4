// judged with: --public --infer
package com.example.sixth;

import java.util.ArrayList;
import java.util.Collection;
import java.util.List;
import java.util.Objects;
import java.util.Optional;

/** A bounded FIFO buffer in the classic monitor style. */
public class RingBuffer<E> {
    private final Object[] items;
    private int head;
    private int tail;
    private int count;

    public RingBuffer(int capacity) {
        if (capacity <= 0) {
            throw new IllegalArgumentException("capacity: " + capacity);
        }
        this.items = new Object[capacity];
    }

    public synchronized void put(E element) throws InterruptedException { // accepted
        Objects.requireNonNull(element, "element");
        while (count == items.length) {
            wait();
        }
        enqueue(element);
        notifyAll();
    }

    public synchronized E take() throws InterruptedException { // accepted
        while (count == 0) {
            wait();
        }
        E element = dequeue();
        notifyAll();
        return element;
    }

    public synchronized boolean offer(E element) { // accepted
        Objects.requireNonNull(element, "element");
        if (count == items.length) {
            return false;
        }
        enqueue(element);
        notifyAll();
        return true;
    }

    public synchronized E poll() { // accepted
        if (count == 0) {
            return null;
        }
        E element = dequeue();
        notifyAll();
        return element;
    }

    public synchronized void putAll(Collection<? extends E> batch) throws InterruptedException { // refused: fault: put() inside waits when the buffer is full and lets go of the monitor halfway: capacity 2 holding x, putAll([a,b]) stores a and waits; another thread does take() (gets x) and offer(z) (true) before the waiter has the monitor again; later the takers get a, z, b, so z lies between a and b of one batch
        for (E element : batch) {
            put(element);
        }
    }

    public boolean offerAll(List<? extends E> batch) { // refused: fault: check-then-act in many regions: remainingCapacity() says 2, another thread's offer(x) takes a place, the second offer of the batch returns false (ignored), offerAll returns true but one element is missing; also drain() in between sees half of the batch
        if (remainingCapacity() < batch.size()) {
            return false;
        }
        batch.forEach(this::offer);
        return true;
    }

    public synchronized int remainingCapacity() { // accepted
        return items.length - count;
    }

    public synchronized boolean isEmpty() { // accepted
        return count == 0;
    }

    public int size() { // refused: fault: one look at a field without its lock
        return count;
    }

    @SuppressWarnings("unchecked")
    public Optional<E> peek() { // refused: fault: two regions: isEmpty() says false, another thread's take() removes the last element, items[head] is null and Optional.of throws NullPointerException, which no order of whole calls gives
        if (isEmpty()) {
            return Optional.empty();
        }
        synchronized (this) {
            return Optional.of((E) items[head]);
        }
    }

    public Optional<E> pollIfPresent() { // refused: fault: isEmpty() says false, another thread's poll() takes the last element, poll() returns null and Optional.of throws NullPointerException
        return isEmpty() ? Optional.empty() : Optional.of(poll());
    }

    @SuppressWarnings("unchecked")
    public synchronized List<E> drain() { // accepted
        List<E> drained = new ArrayList<>(count);
        for (int i = 0; i < count; i++) {
            int index = (head + i) % items.length;
            drained.add((E) items[index]);
            items[index] = null;
        }
        head = 0;
        tail = 0;
        count = 0;
        notifyAll();
        return drained;
    }

    /** Moves the oldest element to the end of the queue. */
    public synchronized void rotate() { // accepted: the look without the lock is refused in its place
        if (count > 1) {
            E oldest = dequeue();
            enqueue(oldest);
        }
    }

    private void enqueue(E element) {
        items[tail] = element;
        tail = (tail + 1) % items.length;
        count++;
    }

    @SuppressWarnings("unchecked")
    private E dequeue() {
        E element = (E) items[head];
        items[head] = null;
        head = (head + 1) % items.length;
        count--;
        return element;
    }
}
