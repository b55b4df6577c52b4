package com.example.slots;

import java.util.ArrayList;
import java.util.List;
import java.util.Objects;
import java.util.Optional;
import java.util.concurrent.TimeUnit;
import java.util.concurrent.locks.Condition;
import java.util.concurrent.locks.ReentrantLock;
import java.util.function.Predicate;

/** What one side puts in and the other takes out. */
interface Channel<E> {
    boolean offer(E item);

    Optional<E> poll();

    int size();

    default boolean isEmpty() { // accepted
        return size() == 0;
    }

    default int moveTo(List<? super E> target, int most) { // refused: fault: one region for each item
        int moved = 0;
        for (var next = poll(); next.isPresent(); next = moved < most ? poll() : Optional.empty()) {
            target.add(next.get());
            moved++;
        }
        return moved;
    }
}

/** A ring of numbered slots under one fair lock. */
// judged with: --public --infer
public final class SlotBuffer<E> implements Channel<E> {
    private record Slot<T>(T item, long number) {
    }

    /** How many came and went. */
    public record Counts(long put, long taken) {
        public Counts {
            if (taken > put) {
                throw new IllegalArgumentException(taken + " of " + put);
            }
        }

        public long left() { // accepted
            return put - taken;
        }
    }

    private final ReentrantLock lock = new ReentrantLock(true);
    private final Condition filled = lock.newCondition();
    private final Condition emptied = lock.newCondition();
    private final Slot<E>[] slots;
    private int first;
    private int size;
    private long put;
    private volatile boolean closed;

    @SuppressWarnings("unchecked")
    public SlotBuffer(int capacity) {
        slots = (Slot<E>[]) new Slot<?>[capacity];
    }

    public void put(E item) throws InterruptedException { // refused: alarm: it looks a second time only where it is closed, and it never opens again
        Objects.requireNonNull(item);
        lock.lockInterruptibly();
        try {
            while (size == slots.length && !closed) {
                emptied.await();
            }
            if (closed) {
                throw new IllegalStateException("closed");
            }
            append(item);
        } finally {
            lock.unlock();
        }
    }

    @Override
    public boolean offer(E item) { // accepted
        lock.lock();
        try {
            return size < slots.length && append(item);
        } finally {
            lock.unlock();
        }
    }

    public boolean offer(E item, long time, TimeUnit unit) throws InterruptedException { // refused: fault: it may have the lock or not, and then waits for it without a limit
        if (lock.tryLock(time, unit)) {
            try {
                return offer(item);
            } finally {
                lock.unlock();
            }
        }
        return offer(item);
    }

    private boolean append(E item) {
        slots[(first + size++) % slots.length] = new Slot<>(item, put++);
        filled.signal();
        return true;
    }

    @Override
    public Optional<E> poll() { // accepted
        lock.lock();
        try {
            return size == 0 ? Optional.empty() : Optional.of(remove().item());
        } finally {
            lock.unlock();
        }
    }

    public E take() throws InterruptedException { // accepted
        lock.lock();
        try {
            while (size == 0) {
                filled.await();
            }
            return remove().item();
        } finally {
            lock.unlock();
        }
    }

    private Slot<E> remove() {
        var slot = slots[first];
        slots[first] = null;
        first = (first + 1) % slots.length;
        size--;
        emptied.signal();
        return slot;
    }

    public List<E> takeWhile(Predicate<? super E> test) { // accepted
        lock.lock();
        try {
            var taken = new ArrayList<E>();
            while (size > 0 && test.test(slots[first].item())) {
                taken.add(remove().item());
            }
            return taken;
        } finally {
            lock.unlock();
        }
    }

    @Override
    public int size() { // accepted
        lock.lock();
        try {
            return size;
        } finally {
            lock.unlock();
        }
    }

    public Counts counts() { // accepted
        lock.lock();
        try {
            return new Counts(put, put - size);
        } finally {
            lock.unlock();
        }
    }

    public double fill() { // accepted
        return 1.0 * size() / slots.length;
    }

    public boolean hasRoom() { // accepted
        return size() < slots.length && !slotsAreFixed();
    }

    private boolean slotsAreFixed() {
        return slots.length == 0;
    }

    public void close() { // accepted
        closed = true;
    }

    public boolean isDone() { // refused: fault: a look, and then a region
        return closed && isEmpty();
    }
}
