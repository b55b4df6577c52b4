// judged with: --public --infer
package com.example.twentieth;

import java.util.ArrayDeque;
import java.util.ArrayList;
import java.util.Collection;
import java.util.Collections;
import java.util.Deque;
import java.util.EnumMap;
import java.util.List;
import java.util.Map;
import java.util.Optional;
import java.util.concurrent.atomic.AtomicLong;
import java.util.concurrent.locks.Condition;
import java.util.concurrent.locks.Lock;
import java.util.concurrent.locks.ReentrantLock;
import java.util.function.Consumer;
import java.util.function.Predicate;

/**
 * Mailbox with a lane for each priority; urgent mail is received first.
 */
public class PriorityMailbox<M> {

    public enum Priority { URGENT, NORMAL, BULK }

    public record Envelope<M>(long seq, Priority priority, M body) { }

    private final Lock mailLock = new ReentrantLock(true);
    private final Condition arrived = mailLock.newCondition();
    private final Map<Priority, Deque<Envelope<M>>> lanes = new EnumMap<>(Priority.class);
    private final AtomicLong sequence = new AtomicLong();
    private final int laneLimit;
    private Consumer<? super M> overflow = m -> { };
    private int pending;
    private boolean paused;

    public PriorityMailbox(int laneLimit) {
        this.laneLimit = laneLimit;
        for (Priority p : Priority.values()) {
            lanes.put(p, new ArrayDeque<>());
        }
    }

    public void onOverflow(Consumer<? super M> handler) { // accepted
        mailLock.lock();
        try {
            overflow = handler;
        } finally {
            mailLock.unlock();
        }
    }

    public boolean post(Priority priority, M body) { // refused: alarm: one region; the handler is chosen in the region and the unknown handler is called after it with no lock, nothing of the own state is touched after that
        Consumer<? super M> handler;
        mailLock.lock();
        try {
            Deque<Envelope<M>> lane = lanes.get(priority);
            if (lane.size() < laneLimit) {
                lane.addLast(new Envelope<>(sequence.incrementAndGet(), priority, body));
                pending++;
                arrived.signal();
                return true;
            }
            handler = overflow;
        } finally {
            mailLock.unlock();
        }
        handler.accept(body);
        return false;
    }

    /** Posts all of the bulk mail under consecutive sequence numbers. */
    public long postBulk(Collection<? extends M> bodies) { // refused: fault: the numbers are taken before the lock: A takes 1..3, B's post takes 4 and puts it in the BULK lane, A puts 1..3 behind it (B's receive gives 4 before 1, no uninterrupted run does)
        long first = sequence.getAndAdd(bodies.size()) + 1;
        long seq = first;
        mailLock.lock();
        try {
            for (M body : bodies) {
                lanes.get(Priority.BULK).addLast(new Envelope<>(seq++, Priority.BULK, body));
                pending++;
            }
            arrived.signalAll();
        } finally {
            mailLock.unlock();
        }
        return first;
    }

    public Envelope<M> receive() throws InterruptedException { // accepted
        mailLock.lock();
        try {
            while (paused || pending == 0) {
                arrived.await();
            }
            pending--;
            return firstLane().orElseThrow().removeFirst();
        } finally {
            mailLock.unlock();
        }
    }

    public Optional<Envelope<M>> peek() { // refused: alarm: one region, an immutable record is handed out
        mailLock.lock();
        try {
            return firstLane().map(Deque::peekFirst);
        } finally {
            mailLock.unlock();
        }
    }

    public void setPaused(boolean value) { // accepted
        mailLock.lock();
        try {
            paused = value;
            arrived.signalAll();
        } finally {
            mailLock.unlock();
        }
    }

    public boolean isPaused() { // refused: fault: one look at the plain boolean without the lock
        return paused;
    }

    public int pending(Priority priority) { // accepted
        mailLock.lock();
        try {
            return lanes.get(priority).size();
        } finally {
            mailLock.unlock();
        }
    }

    public Map<Priority, Integer> backlog() { // refused: fault: a region for each priority: A has read URGENT=0, B posts urgent mail and then normal mail, A reads NORMAL=1: a backlog that never was
        Map<Priority, Integer> result = new EnumMap<>(Priority.class);
        for (Priority p : Priority.values()) {
            result.put(p, pending(p));
        }
        return result;
    }

    public Collection<Envelope<M>> lane(Priority priority) { // refused: fault: hands out a live view of an ArrayDeque: A iterates over it without the lock while B posts or receives
        return Collections.unmodifiableCollection(lanes.get(priority));
    }

    /** Takes out the messages that are of no interest any more. */
    public List<Envelope<M>> recall(Predicate<? super M> unwanted) { // refused: alarm: one region, fresh result; calls the unknown predicate while holding the lock, atomic as far as the own state goes
        List<Envelope<M>> recalled = new ArrayList<>();
        mailLock.lock();
        try {
            for (Deque<Envelope<M>> lane : lanes.values()) {
                lane.stream().filter(e -> unwanted.test(e.body())).forEach(recalled::add);
            }
            lanes.values().forEach(lane -> lane.removeAll(recalled));
            pending = lanes.values().stream().mapToInt(Deque::size).sum();
        } finally {
            mailLock.unlock();
        }
        return recalled;
    }

    private Optional<Deque<Envelope<M>>> firstLane() {
        return lanes.values().stream().filter(lane -> !lane.isEmpty()).findFirst();
    }
}
