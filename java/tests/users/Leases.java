package com.example.leases;

import java.io.Closeable;
import java.util.ArrayDeque;
import java.util.ArrayList;
import java.util.Deque;
import java.util.HashSet;
import java.util.List;
import java.util.Set;
import java.util.concurrent.Semaphore;
import java.util.concurrent.TimeoutException;
import java.util.concurrent.atomic.AtomicInteger;
import java.util.concurrent.locks.Lock;
import java.util.concurrent.locks.ReentrantLock;
import java.util.function.Consumer;
import java.util.function.Supplier;

/** A pool of objects of any class, which are lent out for a time. */
// judged with: --public --infer
public class Leases<T> implements Closeable {

    /** Where a lease stands. */
    private enum State { OUT, BACK, BROKEN }

    /** An object that somebody has for now. */
    public final class Lease implements AutoCloseable {
        private final T object;
        private State state = State.OUT;

        private Lease(T object) {
            this.object = object;
        }

        public T get() { // accepted
            synchronized (this) {
                if (state != State.OUT) {
                    throw new IllegalStateException("not out: " + state);
                }
            }
            return object;
        }

        public synchronized void breakIt() { // accepted
            state = State.BROKEN;
        }

        @Override
        public void close() { // refused: fault: between the look at the state and giving back somebody may see it half done
            boolean again;
            synchronized (this) {
                again = state == State.OUT;
                state = state == State.OUT ? State.BACK : state;
            }
            if (again) {
                giveBack(this);
            }
        }
    }

    private final Lock lock = new ReentrantLock();
    private final Deque<T> idle = new ArrayDeque<>();
    private final Set<Lease> out = new HashSet<>();
    private final Semaphore permits;
    private final Supplier<? extends T> make;
    private final AtomicInteger made = new AtomicInteger();
    private boolean shut;

    public Leases(int most, Supplier<? extends T> make) {
        permits = new Semaphore(most);
        this.make = make;
    }

    public Lease take() throws TimeoutException { // refused: fault: a permit first, and then a region
        if (!permits.tryAcquire()) {
            throw new TimeoutException();
        }
        boolean given = false;
        try {
            var lease = lend();
            given = true;
            return lease;
        } finally {
            if (!given) {
                permits.release();
            }
        }
    }

    private Lease lend() {
        lock.lock();
        try {
            if (shut) {
                throw new IllegalStateException("shut");
            }
            var object = idle.poll();
            var lease = new Lease(object == null ? fresh() : object);
            out.add(lease);
            return lease;
        } finally {
            lock.unlock();
        }
    }

    private T fresh() {
        made.incrementAndGet();
        return make.get();
    }

    private void giveBack(Lease lease) {
        lock.lock();
        try {
            if (out.remove(lease) && !shut) {
                idle.push(lease.object);
            }
        } finally {
            lock.unlock();
        }
        permits.release();
    }

    public int idle() { // accepted
        lock.lock();
        try {
            return idle.size();
        } finally {
            lock.unlock();
        }
    }

    public int out() { // accepted
        lock.lock();
        try {
            return out.size();
        } finally {
            lock.unlock();
        }
    }

    public int all() { // refused: fault: what is given back between the two is counted twice
        return idle() + out();
    }

    public int known() { // accepted
        lock.lock();
        try {
            return idle.size() + out.size();
        } finally {
            lock.unlock();
        }
    }

    public int made() { // accepted
        return made.get();
    }

    public void use(Consumer<? super T> user) throws TimeoutException { // refused: fault: it takes one, runs the caller's function, and gives it back
        try (var lease = take()) {
            user.accept(lease.get());
        }
    }

    public List<T> drain() { // accepted
        lock.lock();
        try {
            List<T> all = new ArrayList<>(idle);
            idle.clear();
            return all;
        } finally {
            lock.unlock();
        }
    }

    @Override
    public void close() { // refused: fault: what was idle is closed behind the region
        List<T> last;
        lock.lock();
        try {
            shut = true;
            last = drain();
        } finally {
            lock.unlock();
        }
        last.forEach(each -> {
            if (each instanceof Leases<?> pool) {
                pool.close();
            }
        });
    }

    public boolean isShut() { // accepted
        lock.lock();
        try {
            return shut;
        } finally {
            lock.unlock();
        }
    }
}
