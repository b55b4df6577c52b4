package com.example.handles;

import java.util.ArrayList;
import java.util.IdentityHashMap;
import java.util.Iterator;
import java.util.LinkedList;
import java.util.List;
import java.util.Map;
import java.util.function.Consumer;
import java.util.function.Supplier;

/** A pool of things that are dear to make. Who waits gets what is given back, and what is broken is thrown away. */
// judged with: --public --infer
public class HandlePool<T> {

    /** One thing of the pool, and where it is. */
    private static final class Slot<T> {
        final T handle;
        boolean lent;
        long since;
        int loans;

        Slot(T handle) {
            this.handle = handle;
        }
    }

    private final Supplier<? extends T> maker;
    private final Consumer<? super T> breaker;
    private final int most;
    private final List<Slot<T>> slots = new LinkedList<>();
    private final Map<T, Slot<T>> lent = new IdentityHashMap<>();
    private boolean shut;
    private int waiting;

    public HandlePool(Supplier<? extends T> maker, Consumer<? super T> breaker, int most) {
        this.maker = maker;
        this.breaker = breaker;
        this.most = most;
    }

    public synchronized T borrow() throws InterruptedException { // refused: fault: it counts who waits, and gives the lock back
        waiting++;
        try {
            Slot<T> free = free();
            while (free == null && !shut) {
                wait();
                free = free();
            }
            if (shut) {
                throw new IllegalStateException("shut");
            }
            return lend(free);
        } finally {
            waiting--;
        }
    }

    public synchronized T borrowNow() { // accepted
        Slot<T> free = shut ? null : free();
        return free == null ? null : lend(free);
    }

    public synchronized T borrowSoon(long millis) throws InterruptedException { // accepted
        long until = System.currentTimeMillis() + millis;
        while (free() == null && !shut) {
            long left = until - System.currentTimeMillis();
            if (left <= 0) {
                return null;
            }
            wait(left);
        }
        return shut ? null : lend(free());
    }

    private Slot<T> free() {
        for (Slot<T> slot : slots) {
            if (!slot.lent) {
                return slot;
            }
        }
        return null;
    }

    private T lend(Slot<T> slot) {
        slot.lent = true;
        slot.loans++;
        slot.since = System.nanoTime();
        lent.put(slot.handle, slot);
        return slot.handle;
    }

    public synchronized void giveBack(T handle) { // accepted
        Slot<T> slot = lent.remove(handle);
        if (slot == null) {
            throw new IllegalArgumentException("not of this pool");
        }
        slot.lent = false;
        notify();
    }

    public boolean grow() { // refused: fault: the room is seen in one region and filled in another
        synchronized (this) {
            if (shut || slots.size() >= most) {
                return false;
            }
        }
        T made = maker.get();
        synchronized (this) {
            slots.add(new Slot<>(made));
            notify();
        }
        return true;
    }

    public synchronized boolean growLocked() { // accepted
        if (shut || slots.size() >= most) {
            return false;
        }
        slots.add(new Slot<>(maker.get()));
        notify();
        return true;
    }

    public synchronized int idle() { // accepted
        int idle = 0;
        for (Slot<T> slot : slots) {
            idle += slot.lent ? 0 : 1;
        }
        return idle;
    }

    public synchronized int waiting() { // accepted
        return waiting;
    }

    public synchronized boolean isBusy() { // accepted
        return idle() == 0 && waiting() > 0;
    }

    public synchronized void expire(long nanos) { // accepted
        long now = System.nanoTime();
        for (Iterator<Slot<T>> walk = slots.iterator(); walk.hasNext(); ) {
            Slot<T> slot = walk.next();
            if (!slot.lent && now - slot.since > nanos) {
                walk.remove();
            }
        }
    }

    public void replace(T broken) { // refused: fault: it is taken out, broken and made anew in three steps
        synchronized (this) {
            Slot<T> slot = lent.remove(broken);
            slots.remove(slot);
        }
        breaker.accept(broken);
        grow();
    }

    public void shut() { // refused: fault: what was lent is broken behind the region
        List<T> all = new ArrayList<>();
        synchronized (this) {
            shut = true;
            for (Slot<T> slot : slots) {
                all.add(slot.handle);
            }
            slots.clear();
            lent.clear();
            notifyAll();
        }
        all.forEach(breaker);
    }

    public <R> R with(java.util.function.Function<? super T, R> use) throws InterruptedException { // refused: fault: it is lent, used and given back
        T handle = borrow();
        try {
            return use.apply(handle);
        } finally {
            giveBack(handle);
        }
    }
}
