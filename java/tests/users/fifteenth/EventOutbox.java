// judged with: --public --infer
package com.example.fifteenth;

import java.time.Instant;
import java.util.ArrayDeque;
import java.util.Iterator;
import java.util.List;
import java.util.Objects;
import java.util.Optional;
import java.util.concurrent.CopyOnWriteArrayList;
import java.util.function.Consumer;
import java.util.function.Predicate;
import java.util.stream.Collectors;
import java.util.stream.Stream;

/**
 * Outbox of domain events waiting to be published, in order of arrival.
 *
 * @param <E> type of the payload
 */
public class EventOutbox<E> implements Iterable<EventOutbox.Envelope<E>> {

    public enum Priority { NORMAL, URGENT }

    public record Envelope<E>(long id, Priority priority, Instant at, E payload) {
        public Envelope {
            Objects.requireNonNull(payload);
        }
    }

    private final Object mutex = new Object();
    private final ArrayDeque<Envelope<E>> pending = new ArrayDeque<>();
    private final List<Consumer<? super Envelope<E>>> listeners = new CopyOnWriteArrayList<>();
    private final int maxPending;
    private long nextId = 1;
    private long published;

    public EventOutbox(int maxPending) {
        this.maxPending = maxPending;
    }

    public void onEvent(Consumer<? super Envelope<E>> listener) { // accepted
        listeners.add(Objects.requireNonNull(listener));
    }

    /** Adds an event and returns its id, or nothing if the outbox is full. */
    public Optional<Long> post(E payload, Priority priority) { // refused: doubtful: the outbox itself changes in one region, but the own list of listeners is read only after it: poll() takes the event, then onEvent(l) adds l, and l still hears of the polled event; purely for pending/nextId it is atomic
        Envelope<E> env;
        synchronized (mutex) {
            if (pending.size() >= maxPending) {
                return Optional.empty();
            }
            env = new Envelope<>(nextId++, priority, Instant.now(), payload);
            if (priority == Priority.URGENT) {
                pending.addFirst(env);
            } else {
                pending.addLast(env);
            }
        }
        listeners.forEach(l -> l.accept(env));
        return Optional.of(env.id());
    }

    public Optional<Envelope<E>> poll() { // refused: alarm: one synchronized region
        synchronized (mutex) {
            Envelope<E> head = pending.pollFirst();
            if (head != null) {
                published++;
            }
            return Optional.ofNullable(head);
        }
    }

    /** Hands the oldest event to the publisher and drops it when that succeeded. */
    public boolean publishNext(Predicate<? super E> publisher) { // refused: fault: peek and removeFirst are two regions with the alien publisher between: two threads publish the same head and the second drops an unpublished event (or removeFirst throws)
        Envelope<E> head;
        synchronized (mutex) {
            head = pending.peekFirst();
        }
        if (head == null || !publisher.test(head.payload())) {
            return false;
        }
        synchronized (mutex) {
            pending.removeFirst();
            published++;
        }
        return true;
    }

    public List<Envelope<E>> pollBatch(int max) { // refused: alarm: one region; the stream is consumed within it
        synchronized (mutex) {
            List<Envelope<E>> batch = Stream.generate(pending::pollFirst)
                    .limit(Math.min(max, pending.size()))
                    .collect(Collectors.toList());
            published += batch.size();
            return batch;
        }
    }

    public boolean cancel(long id) { // refused: alarm: one region
        synchronized (mutex) {
            return pending.removeIf(e -> e.id() == id);
        }
    }

    public long countUrgent() { // refused: fault: streams over the ArrayDeque without mutex: post()/poll() in the middle give ConcurrentModificationException or a count of no moment
        return pending.stream().filter(e -> e.priority() == Priority.URGENT).count();
    }

    @Override
    public Iterator<Envelope<E>> iterator() { // refused: alarm: iterates a copy made in one region
        synchronized (mutex) {
            return List.copyOf(pending).iterator();
        }
    }

    public long published() { // accepted
        synchronized (mutex) {
            return published;
        }
    }

    public boolean isDrained() { // refused: alarm: two regions, yet both numbers only grow and published <= nextId-1: equal means drained at the first look, unequal means not drained at some moment up to the second look (a purely lock-based reasoner would not see that)
        return published() == lastId();
    }

    private long lastId() {
        synchronized (mutex) {
            return nextId - 1;
        }
    }
}
