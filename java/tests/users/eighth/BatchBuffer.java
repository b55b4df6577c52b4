// judged with: --public --infer
package com.example.eighth;

import java.util.ArrayList;
import java.util.Collection;
import java.util.Collections;
import java.util.Iterator;
import java.util.List;
import java.util.function.Consumer;
import java.util.function.Predicate;

/** Gathers items until somebody takes them as a batch. */
public class BatchBuffer<T> implements Iterable<T> {

    private final List<T> pending = Collections.synchronizedList(new ArrayList<>());
    private final Consumer<? super List<T>> sink;
    private final int limit;

    public BatchBuffer(int limit, Consumer<? super List<T>> sink) {
        this.limit = limit;
        this.sink = sink;
    }

    public void add(T item) { // accepted
        pending.add(item);
    }

    public void addAll(Collection<? extends T> items) { // accepted
        pending.addAll(items);
    }

    public boolean addUnique(T item) { // refused: fault: check-then-act in two regions: two threads find x absent and both add it, both return true and snapshot() is [x,x]
        if (pending.contains(item)) {
            return false;
        }
        return pending.add(item);
    }

    public boolean addDistinct(T item) { // accepted
        synchronized (pending) {
            return !pending.contains(item) && pending.add(item);
        }
    }

    /** Refuses the item when the batch is full. */
    public synchronized boolean offer(T item) { // refused: fault: the lock of another object: it holds this, not the list's mutex: list [a] of limit 2 is seen, another thread's add(y) fills it, offer(x) adds and returns true: snapshot() is [a,y,x], although after add(y) the offer had to be refused and before it x would stand before y
        return pending.size() < limit && pending.add(item);
    }

    public void flush() { // refused: fault: copy, delivery and clear are separate: another thread's add(x) after List.copyOf and before clear() is neither delivered nor kept
        sink.accept(List.copyOf(pending));
        pending.clear();
    }

    public List<T> take() { // refused: alarm: the lock of a synchronized list is its monitor, which is held
        synchronized (pending) {
            List<T> batch = List.copyOf(pending);
            pending.clear();
            return batch;
        }
    }

    public List<T> takeIfFull() { // refused: fault: two regions: isFull() says true, another thread's remove(x) returns true, take() then returns a batch smaller than limit but not empty
        return isFull() ? take() : List.of();
    }

    public List<T> takeFull() { // refused: alarm: the lock of a synchronized list is its monitor, which is held
        synchronized (pending) {
            if (pending.size() < limit) {
                return List.of();
            }
            List<T> head = pending.subList(0, limit);
            List<T> batch = List.copyOf(head);
            head.clear();
            return batch;
        }
    }

    public List<T> snapshot() { // refused: alarm: List.copyOf calls toArray, which takes the lock of the list
        return List.copyOf(pending);
    }

    public long count(Predicate<? super T> condition) { // refused: fault: the stream of a synchronizedList runs without its mutex: another thread's add() during it gives ConcurrentModificationException (or a wrong count)
        return pending.stream().filter(condition).count();
    }

    public boolean anyMatch(Predicate<? super T> condition) { // refused: alarm: the lock of a synchronized list is its monitor, which is held
        synchronized (pending) {
            return pending.stream().anyMatch(condition);
        }
    }

    public T last() { // refused: fault: three regions: isEmpty() is false, another thread's take() empties the list, size() - 1 is -1: IndexOutOfBoundsException
        return pending.isEmpty() ? null : pending.get(pending.size() - 1);
    }

    public boolean remove(T item) { // accepted
        return pending.remove(item);
    }

    public int size() { // accepted
        return pending.size();
    }

    public boolean isFull() { // accepted
        return pending.size() >= limit;
    }

    public List<T> view() { // accepted: the call only wraps a final field, whose list takes its own lock; the walk is the caller's
        return Collections.unmodifiableList(pending);
    }

    @Override
    public Iterator<T> iterator() { // refused: alarm: List.copyOf calls toArray, which takes the lock of the list
        return snapshot().iterator();
    }
}
