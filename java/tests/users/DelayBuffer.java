package com.example.delays;

import java.util.ArrayList;
import java.util.Comparator;
import java.util.List;
import java.util.Optional;
import java.util.PriorityQueue;
import java.util.concurrent.TimeUnit;
import java.util.concurrent.atomic.AtomicLong;
import java.util.concurrent.locks.Condition;
import java.util.concurrent.locks.ReentrantLock;
import java.util.function.ToLongFunction;

/** A buffer that gives each item when its time has come. */
// judged with: --public --infer
public class DelayBuffer<E> {

    /** An item and its time. */
    private record Delayed<T>(T item, long due, long number) {
        private static final Comparator<Delayed<?>> ORDER =
            Comparator.<Delayed<?>>comparingLong(Delayed::due).thenComparingLong(Delayed::number);

        boolean isDue(long now) {
            return due <= now;
        }
    }

    private final ReentrantLock lock = new ReentrantLock();
    private final Condition changed = lock.newCondition();
    private final PriorityQueue<Delayed<E>> queue = new PriorityQueue<>(Delayed.ORDER);
    private final AtomicLong given = new AtomicLong();
    private final int most;
    private long number;
    private volatile long latest = Long.MIN_VALUE;

    public DelayBuffer(int most) {
        this.most = most;
    }

    public boolean offer(E item, long due) { // accepted
        lock.lock();
        try {
            if (queue.size() >= most) {
                return false;
            }
            queue.add(new Delayed<>(item, due, number++));
            changed.signalAll();
            return true;
        } finally {
            lock.unlock();
        }
    }

    public void put(E item, long due) throws InterruptedException { // accepted
        lock.lock();
        try {
            while (queue.size() >= most) {
                changed.await();
            }
            queue.add(new Delayed<>(item, due, number++));
            changed.signalAll();
        } finally {
            lock.unlock();
        }
    }

    public E take() throws InterruptedException { // accepted
        lock.lock();
        try {
            for (;;) {
                var first = queue.peek();
                if (first == null) {
                    changed.await();
                } else {
                    long wait = first.due() - System.nanoTime();
                    if (wait <= 0) {
                        changed.signalAll();
                        return queue.remove().item();
                    }
                    changed.await(wait, TimeUnit.NANOSECONDS);
                }
            }
        } finally {
            lock.unlock();
        }
    }

    public Optional<E> poll() { // accepted
        lock.lock();
        try {
            return due().map(Delayed::item);
        } finally {
            lock.unlock();
        }
    }

    private Optional<Delayed<E>> due() {
        long now = System.nanoTime();
        return Optional.ofNullable(queue.peek()).filter(first -> first.isDue(now)).map(first -> queue.poll());
    }

    public Optional<E> pollAndCount() { // refused: fault: the item is gone before it is counted
        var item = poll();
        item.ifPresent(each -> given.incrementAndGet());
        return item;
    }

    public List<E> drain() { // accepted
        var all = new ArrayList<E>();
        lock.lock();
        try {
            for (var next = due(); next.isPresent(); next = due()) {
                all.add(next.get().item());
            }
        } finally {
            lock.unlock();
        }
        return all;
    }

    public long nextDue() { // accepted
        lock.lock();
        try {
            return queue.isEmpty() ? Long.MAX_VALUE : queue.peek().due();
        } finally {
            lock.unlock();
        }
    }

    public boolean isDue() { // accepted
        return nextDue() <= System.nanoTime();
    }

    public void postpone(long nanos) { // accepted
        lock.lock();
        try {
            var all = queue.stream().map(each -> new Delayed<>(each.item(), each.due() + nanos, each.number())).toList();
            queue.clear();
            queue.addAll(all);
        } finally {
            lock.unlock();
        }
    }

    public void reorder(ToLongFunction<? super E> due) { // accepted
        lock.lock();
        try {
            var all = queue.stream().map(each -> new Delayed<>(each.item(), due.applyAsLong(each.item()), each.number()))
                .toList();
            queue.clear();
            queue.addAll(all);
        } finally {
            lock.unlock();
        }
    }

    public void see(long due) { // refused: fault: it looks and then writes, and holds nothing
        if (due > latest) {
            latest = due;
        }
    }

    public long latest() { // accepted
        return latest;
    }

    public long given() { // accepted
        return given.get();
    }
}
