// judged with: --public --infer
package com.example.twelfth;

import java.util.ArrayDeque;
import java.util.ArrayList;
import java.util.Collection;
import java.util.List;
import java.util.Queue;
import java.util.concurrent.locks.Condition;
import java.util.concurrent.locks.Lock;
import java.util.concurrent.locks.ReentrantLock;
import java.util.function.Consumer;
import java.util.function.Predicate;

/** Bounded buffer of outgoing messages between the chat rooms and the wire. */
public class OutboxBuffer<M> {

  private final Lock lock = new ReentrantLock();
  private final Condition notFull = lock.newCondition();
  private final Condition notEmpty = lock.newCondition();
  private final Queue<M> queue = new ArrayDeque<>();
  private final int bound;
  private volatile boolean paused;

  public OutboxBuffer(int bound) { this.bound = bound; }

  public void send(M message) throws InterruptedException { // accepted
    lock.lock();
    try {
      while (queue.size() == bound) notFull.await();
      enqueue(message);
    } finally {
      lock.unlock();
    }
  }

  public boolean offer(M message) { // accepted
    lock.lock();
    try {
      if (queue.size() == bound) return false;
      enqueue(message);
      return true;
    } finally {
      lock.unlock();
    }
  }

  /** Sends all messages in one go, waiting for room where needed. */
  public void sendAll(Collection<? extends M> messages) throws InterruptedException { // refused: fault: holds the lock, but await() inside the loop lets it go when part of the messages is already queued: bound 2, T1 sends a,b,c, waits after b, T2 receives a and sends x, T1 then sends c: x stands between b and c (and receivers see a half-sent batch)
    lock.lock();
    try {
      for (var message : messages) {
        while (queue.size() == bound) notFull.await();
        enqueue(message);
      }
    } finally {
      lock.unlock();
    }
  }

  public M receive() throws InterruptedException { // accepted
    lock.lock();
    try {
      while (queue.isEmpty() || paused) notEmpty.await();
      return dequeue();
    } finally {
      lock.unlock();
    }
  }

  /** Waits for a message, then takes whatever else is there, up to the maximum. */
  public List<M> receiveBatch(int max) throws InterruptedException { // refused: fault: two regions: T1 takes the first message, T2 takes the second, T1 goes on with the third
    var batch = new ArrayList<M>();
    batch.add(receive());
    lock.lock();
    try {
      while (batch.size() < max && !queue.isEmpty()) batch.add(dequeue());
    } finally {
      lock.unlock();
    }
    return batch;
  }

  public int drainTo(Consumer<? super M> sink) { // accepted
    lock.lock();
    try {
      int n = 0;
      for (; !queue.isEmpty(); n++) sink.accept(dequeue());
      return n;
    } finally {
      lock.unlock();
    }
  }

  public long pending(Predicate<? super M> filter) { // refused: fault: iterates the guarded ArrayDeque without the lock: T2 receives or sends meanwhile, T1 gets ConcurrentModificationException or a count that never was
    return queue.stream().filter(filter).count();
  }

  public boolean isPaused() { return paused; } // accepted

  public boolean togglePause() { // refused: fault: paused = !paused on a volatile (and read again for the answer): two toggles both read false and both write true; or T2 toggles between T1's write and T1's second read, so both answer alike
    paused = !paused;
    if (paused) return true;
    lock.lock();
    try {
      notEmpty.signalAll();
      return false;
    } finally {
      lock.unlock();
    }
  }

  private void enqueue(M message) {
    queue.add(message);
    notEmpty.signal();
  }

  private M dequeue() {
    M message = queue.remove();
    notFull.signal();
    return message;
  }
}
