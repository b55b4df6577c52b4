// judged with: --public --infer
package com.example.twentysecond;

import java.util.ArrayDeque;
import java.util.ArrayList;
import java.util.Collections;
import java.util.Deque;
import java.util.IdentityHashMap;
import java.util.List;
import java.util.Optional;
import java.util.Set;
import java.util.function.Consumer;
import java.util.function.Function;
import java.util.function.Predicate;
import java.util.function.Supplier;

/** Pool of reusable channels with an upper limit. Channels are validated when they come back. */
public class ChannelPool<C> {
    private final Object monitor = new Object();
    private final Deque<C> idle = new ArrayDeque<>();
    private final Set<C> leased = Collections.newSetFromMap(new IdentityHashMap<>());
    private final Supplier<? extends C> factory;
    private final Predicate<? super C> validator;
    private final int limit;
    private int waiting;
    private boolean closed;

    public ChannelPool(int limit, Supplier<? extends C> factory, Predicate<? super C> validator) {
        this.limit = limit;
        this.factory = factory;
        this.validator = validator;
    }

    public C acquire() throws InterruptedException { // refused: doubtful: the lease itself is one region, but before it waits it writes waiting++, which B can see through waiting(): a part of an unfinished call is visible; most would say that this is what waiting() is for. Calls the alien factory under the lock
        synchronized (monitor) {
            for (;;) {
                C channel = take();
                if (channel != null) return channel;
                waiting++;
                try {
                    monitor.wait();
                } finally {
                    waiting--;
                }
            }
        }
    }

    public Optional<C> tryAcquire() { // accepted
        synchronized (monitor) {
            return Optional.ofNullable(take());
        }
    }

    public void release(C channel) { // refused: fault: two regions with an alien validator between: channel is in neither set, B acquires and makes a new one, then A adds the old: total() is limit+1 (and total() dips meanwhile)
        synchronized (monitor) {
            if (!leased.remove(channel)) throw new IllegalArgumentException("not leased here");
        }
        boolean healthy = validator.test(channel);
        synchronized (monitor) {
            if (healthy && !closed) idle.addFirst(channel);
            monitor.notify();
        }
    }

    public <R> R call(Function<? super C, ? extends R> work) throws InterruptedException { // refused: fault: acquire, alien work, release are separate regions: B sees the channel leased in between (meant so, but not atomic)
        C channel = acquire();
        try {
            return work.apply(channel);
        } finally {
            release(channel);
        }
    }

    public int preload(int count) { // refused: fault: check total() < limit in one region, add in another, a region per channel: A and B both see limit-1 and both add: total() is limit+1
        int made = 0;
        while (made < count && total() < limit) {
            C fresh = factory.get();
            synchronized (monitor) {
                idle.addLast(fresh);
                monitor.notify();
            }
            made++;
        }
        return made;
    }

    public int total() { // accepted
        synchronized (monitor) {
            return idle.size() + leased.size();
        }
    }

    public int headroom() { // accepted
        return limit - total();
    }

    public int waiting() { // accepted
        synchronized (monitor) {
            return waiting;
        }
    }

    public Set<C> leased() { // refused: fault: live view of the private set leaves the lock: the caller iterates while B acquires
        synchronized (monitor) {
            return Collections.unmodifiableSet(leased);
        }
    }

    public boolean isClosed() { // refused: fault: one look at the plain boolean without the monitor
        return closed;
    }

    public void close(Consumer<? super C> disposer) { // refused: alarm: one region as far as the own state goes; the alien disposer is called on a local copy, after the region
        List<C> rest;
        synchronized (monitor) {
            closed = true;
            rest = new ArrayList<>(idle);
            idle.clear();
            monitor.notifyAll();
        }
        rest.forEach(disposer);
    }

    private C take() {
        if (closed) throw new IllegalStateException("pool is closed");
        C channel = idle.pollFirst();
        if (channel == null && leased.size() < limit) channel = factory.get();
        if (channel != null) leased.add(channel);
        return channel;
    }
}
