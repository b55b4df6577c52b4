// judged with: --public --infer
package com.example.seventh;

import java.util.ArrayDeque;
import java.util.ArrayList;
import java.util.Collection;
import java.util.Deque;
import java.util.List;
import java.util.concurrent.locks.Condition;
import java.util.concurrent.locks.ReentrantLock;
import java.util.function.UnaryOperator;

public final class BoundedMailbox<M> {
    private final ReentrantLock lock = new ReentrantLock();
    private final Condition notEmpty = lock.newCondition();
    private final Condition notFull = lock.newCondition();
    private final Deque<M> queue = new ArrayDeque<>();
    private final int capacity;
    private volatile boolean paused;

    public BoundedMailbox(int capacity) {
        this.capacity = capacity;
    }

    public void send(M message) throws InterruptedException { // accepted
        lock.lockInterruptibly();
        try {
            while (queue.size() >= capacity) {
                notFull.await();
            }
            queue.addLast(message);
            notEmpty.signalAll();
        } finally {
            lock.unlock();
        }
    }

    public boolean trySend(M message) { // accepted
        lock.lock();
        try {
            if (queue.size() >= capacity) {
                return false;
            }
            queue.addLast(message);
            notEmpty.signalAll();
            return true;
        } finally {
            lock.unlock();
        }
    }

    public M receive() throws InterruptedException { // accepted
        lock.lockInterruptibly();
        try {
            while (paused || queue.isEmpty()) {
                notEmpty.await();
            }
            notFull.signalAll();
            return queue.removeFirst();
        } finally {
            lock.unlock();
        }
    }

    public M tryReceive() { // accepted
        lock.lock();
        try {
            if (paused) {
                return null;
            }
            notFull.signalAll();
            return queue.pollFirst();
        } finally {
            lock.unlock();
        }
    }

    public List<M> receiveBatch(int n) throws InterruptedException { // refused: fault: waits after it has already removed messages: queue [a], receiveBatch(2) removes a and waits; another thread sees snapshot() empty, then send(b); the batch is [a,b], so the batch came after send(b), but then a had to be in the snapshot before it
        List<M> batch = new ArrayList<>(n);
        lock.lockInterruptibly();
        try {
            while (batch.size() < n) {
                while (queue.isEmpty()) {
                    notEmpty.await();
                }
                batch.add(queue.removeFirst());
                notFull.signalAll();
            }
            return batch;
        } finally {
            lock.unlock();
        }
    }

    public List<M> receiveExactly(int n) throws InterruptedException { // accepted
        lock.lockInterruptibly();
        try {
            while (queue.size() < n) {
                notEmpty.await();
            }
            List<M> batch = new ArrayList<>(n);
            for (int i = 0; i < n; i++) {
                batch.add(queue.removeFirst());
            }
            notFull.signalAll();
            return batch;
        } finally {
            lock.unlock();
        }
    }

    public boolean sendIfAbsent(M message) { // refused: fault: check-then-act: two threads find m absent and both send it, both return true and snapshot() has m twice
        return !snapshot().contains(message) && trySend(message);
    }

    public int drainTo(Collection<? super M> sink) { // refused: fault: one region per message: queue [a,b], after a is taken another thread's snapshot() is [b]
        int moved = 0;
        for (M m = tryReceive(); m != null; m = tryReceive()) {
            sink.add(m);
            moved++;
        }
        return moved;
    }

    public void transform(UnaryOperator<M> operator) { // refused: fault: snapshot and replacement are separate regions: another thread's send(x) between them is wiped by queue.clear(), the message is lost (or a message received in between comes back)
        List<M> mapped = snapshot().stream().map(operator).toList();
        lock.lock();
        try {
            queue.clear();
            queue.addAll(mapped);
            notEmpty.signalAll();
        } finally {
            lock.unlock();
        }
    }

    public List<M> snapshot() { // accepted
        lock.lock();
        try {
            return List.copyOf(queue);
        } finally {
            lock.unlock();
        }
    }

    public void pause() { // accepted
        paused = true;
    }

    public void resume() { // accepted
        lock.lock();
        try {
            paused = false;
            notEmpty.signalAll();
        } finally {
            lock.unlock();
        }
    }

    public boolean isPaused() { // accepted
        return paused;
    }
}
