package com.example.batches;

import java.time.Duration;
import java.util.ArrayDeque;
import java.util.ArrayList;
import java.util.Collection;
import java.util.List;
import java.util.Objects;
import java.util.Optional;
import java.util.concurrent.atomic.LongAdder;
import java.util.concurrent.locks.Condition;
import java.util.concurrent.locks.ReentrantLock;
import java.util.function.Consumer;
import java.util.function.Predicate;

/** A bounded buffer from which items are taken in batches. What is too old is thrown away. */
// judged with: --public --infer
public final class BatchBuffer<E> implements AutoCloseable {

    /** An item, and when it came. */
    private record Entry<T>(T item, long since) {
        boolean isOlderThan(long nanos, long now) {
            return now - since > nanos;
        }
    }

    /** The buffer at one moment. */
    public record Snapshot(int size, long accepted, boolean open) {
        public boolean isDone() { // accepted
            return size == 0 && !open;
        }
    }

    /** What became of an offer. */
    public enum Outcome { ACCEPTED, FULL, CLOSED }

    private final ReentrantLock lock = new ReentrantLock();
    private final Condition notEmpty = lock.newCondition();
    private final Condition notFull = lock.newCondition();
    private final ArrayDeque<Entry<E>> entries;
    private final LongAdder lost = new LongAdder();
    private final int capacity;
    private long accepted;
    private boolean open = true;
    private volatile Consumer<? super E> listener = item -> { };

    public BatchBuffer(int capacity) {
        if (capacity <= 0) {
            throw new IllegalArgumentException("capacity " + capacity);
        }
        this.capacity = capacity;
        entries = new ArrayDeque<>(capacity);
    }

    private Outcome outlook() {
        return !open ? Outcome.CLOSED : entries.size() == capacity ? Outcome.FULL : Outcome.ACCEPTED;
    }

    private void enqueue(E item) {
        entries.addLast(new Entry<>(item, System.nanoTime()));
        accepted++;
        notEmpty.signal();
    }

    public Outcome offer(E item) { // accepted
        lock.lock();
        try {
            var outcome = outlook();
            switch (outcome) {
                case ACCEPTED -> enqueue(item);
                case FULL -> lost.increment();
                default -> { }
            }
            return outcome;
        } finally {
            lock.unlock();
        }
    }

    public void put(E item) throws InterruptedException { // accepted
        Objects.requireNonNull(item, "item");
        lock.lockInterruptibly();
        try {
            while (open && entries.size() == capacity) {
                notFull.await();
            }
            if (!open) {
                throw new IllegalStateException("closed");
            }
            enqueue(item);
        } finally {
            lock.unlock();
        }
    }

    public boolean put(E item, Duration patience) throws InterruptedException { // accepted
        long left = patience.toNanos();
        lock.lockInterruptibly();
        try {
            while (open && entries.size() == capacity) {
                if (left <= 0) {
                    return false;
                }
                left = notFull.awaitNanos(left);
            }
            if (open) {
                enqueue(item);
            }
            return open;
        } finally {
            lock.unlock();
        }
    }

    public boolean offerAll(Collection<? extends E> items) { // refused: fault: one region for each item
        return items.stream().allMatch(item -> offer(item) == Outcome.ACCEPTED);
    }

    public List<E> takeBatch(int most) throws InterruptedException { // accepted
        lock.lock();
        try {
            while (open && entries.isEmpty()) {
                notEmpty.await();
            }
            var batch = new ArrayList<E>(Math.min(most, entries.size()));
            for (var next = entries.pollFirst(); next != null; next = batch.size() < most ? entries.pollFirst() : null) {
                batch.add(next.item());
            }
            if (!batch.isEmpty()) {
                notFull.signalAll();
            }
            return batch;
        } finally {
            lock.unlock();
        }
    }

    public Optional<E> poll() { // accepted
        lock.lock();
        try {
            return Optional.ofNullable(entries.pollFirst()).map(entry -> {
                notFull.signal();
                return entry.item();
            });
        } finally {
            lock.unlock();
        }
    }

    public Optional<E> find(Predicate<? super E> wanted) { // accepted
        lock.lock();
        try {
            return entries.stream().map(Entry::item).filter(wanted).findFirst().map(item -> item);
        } finally {
            lock.unlock();
        }
    }

    public boolean replaceOldest(E item) { // accepted
        lock.lock();
        try {
            boolean full = outlook() == Outcome.FULL;
            if (full) {
                poll();
            }
            return offer(item) == Outcome.ACCEPTED && full;
        } finally {
            lock.unlock();
        }
    }

    public int expire(Duration age) { // accepted
        lock.lock();
        try {
            long now = System.nanoTime();
            int before = entries.size();
            entries.removeIf(entry -> entry.isOlderThan(age.toNanos(), now));
            int gone = before - entries.size();
            lost.add(gone);
            notFull.signalAll();
            return gone;
        } finally {
            lock.unlock();
        }
    }

    public void drainTo(Collection<? super E> target) { // accepted
        lock.lock();
        try {
            entries.forEach(entry -> target.add(entry.item()));
            entries.clear();
            notFull.signalAll();
        } finally {
            lock.unlock();
        }
    }

    public void onTake(Consumer<? super E> newListener) { // accepted
        listener = Objects.requireNonNull(newListener);
    }

    public boolean takeAndTell() { // refused: fault: the item is gone before the listener is told
        var taken = poll();
        taken.ifPresent(listener);
        return taken.isPresent();
    }

    public Snapshot snapshot() { // accepted
        lock.lock();
        try {
            return new Snapshot(entries.size(), accepted, open);
        } finally {
            lock.unlock();
        }
    }

    public boolean isDone() { // accepted
        return snapshot().isDone();
    }

    public long lost() { // refused: fault: a sum looks at one cell after the other
        return lost.sum();
    }

    @Override
    public void close() { // accepted
        lock.lock();
        try {
            open = false;
            notEmpty.signalAll();
            notFull.signalAll();
        } finally {
            lock.unlock();
        }
    }
}
