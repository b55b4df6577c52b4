// judged with: --public --infer
package com.example.thirteenth;

import java.util.*;
import java.util.function.Consumer;

/** What the workers see of a mailbox. */
interface Mailbox<T> {
    void post(PriorityMailbox.Lane lane, T letter);

    T take() throws InterruptedException;
}

/** Mailbox of an actor with three lanes; letters in faster lanes go first. */
public class PriorityMailbox<T> implements Mailbox<T>, Iterable<T> {

    public enum Lane {
        URGENT, NORMAL, BULK;

        public Lane faster() { // accepted
            return this == BULK ? NORMAL : URGENT;
        }
    }

    private final Map<Lane, Deque<T>> lanes = new EnumMap<>(Lane.class);
    private int total;

    public PriorityMailbox() {
        for (Lane lane : Lane.values()) {
            lanes.put(lane, new ArrayDeque<>());
        }
    }

    @Override
    public synchronized void post(Lane lane, T letter) { // accepted
        lanes.get(lane).addLast(letter);
        total++;
        notifyAll();
    }

    @Override
    public synchronized T take() throws InterruptedException { // accepted
        while (total == 0) {
            wait();
        }
        return next().orElseThrow();
    }

    public synchronized Optional<T> poll() { // accepted
        return next();
    }

    public synchronized Optional<T> peek() { // refused: alarm: the expert sees no interruption
        return lanes.values().stream().filter(q -> !q.isEmpty()).findFirst().map(Deque::peekFirst);
    }

    /** Moves a letter one lane up. */
    public boolean promote(T letter, Lane from) { // refused: fault: remove and post are two regions: in between T2's depths() or take() finds the letter in no lane, and T2's awaitEmpty() returns though a letter is there
        synchronized (this) {
            if (!lanes.get(from).remove(letter)) {
                return false;
            }
            total--;
        }
        post(from.faster(), letter);
        return true;
    }

    public int deliver(Consumer<? super T> worker) { // refused: fault: one region per letter, the unknown worker is called between them without the lock: T2's take() gets the second of three letters, T2's depths() sees the mailbox half delivered
        int delivered = 0;
        for (Optional<T> letter = poll(); letter.isPresent(); letter = poll()) {
            worker.accept(letter.get());
            delivered++;
        }
        return delivered;
    }

    public synchronized void awaitEmpty() throws InterruptedException { // accepted
        while (total > 0) {
            wait();
        }
    }

    public int total() { // refused: fault: one look at a field without its lock
        return total;
    }

    public synchronized Map<Lane, Integer> depths() { // accepted
        Map<Lane, Integer> depths = new EnumMap<>(Lane.class);
        lanes.forEach((lane, queue) -> depths.put(lane, queue.size()));
        return depths;
    }

    public Collection<T> waiting(Lane lane) { // refused: fault: returns a live view of the guarded ArrayDeque: the caller iterates it without the lock while T2 posts, and gets ConcurrentModificationException or a torn picture
        return Collections.unmodifiableCollection(lanes.get(lane));
    }

    @Override
    public synchronized Iterator<T> iterator() { // accepted
        return lanes.values().stream().flatMap(Collection::stream).toList().iterator();
    }

    public synchronized void discard(Lane lane) { // accepted
        Deque<T> queue = lanes.get(lane);
        total -= queue.size();
        queue.clear();
        notifyAll();
    }

    private Optional<T> next() {
        for (Deque<T> queue : lanes.values()) {
            T letter = queue.pollFirst();
            if (letter != null) {
                if (--total == 0) {
                    notifyAll();
                }
                return Optional.of(letter);
            }
        }
        return Optional.empty();
    }
}
