// judged with: --public --infer
package com.example.third;

import java.util.Optional;
import java.util.concurrent.BlockingQueue;
import java.util.concurrent.LinkedBlockingQueue;
import java.util.concurrent.TimeUnit;
import java.util.concurrent.atomic.AtomicBoolean;
import java.util.concurrent.atomic.AtomicInteger;
import java.util.function.Function;
import java.util.function.Supplier;

/** Pool of reusable objects without locks of its own; items are made on demand and never thrown away. */
public final class LeasePool<T> {
    /** The right to use an item until close. */
    public final class Lease implements AutoCloseable {
        private final T item;
        private final AtomicBoolean open = new AtomicBoolean(true);

        private Lease(T item) { this.item = item; }

        public T get() { // accepted
            if (!open.get()) throw new IllegalStateException("closed");
            return item;
        }

        public boolean isOpen() { return open.get(); } // accepted

        @Override
        public void close() { // refused: fault: open is cleared, then the item put back
            if (open.compareAndSet(true, false)) {
                idle.add(item);
            }
        }
    }

    public static final class Builder<T> {
        private Supplier<? extends T> factory;
        private int max = 8;

        public Builder<T> factory(Supplier<? extends T> f) { factory = f; return this; } // accepted
        public Builder<T> max(int m) { max = m; return this; }
        public LeasePool<T> build() { return new LeasePool<>(this); } // refused: fault: its fields have no lock
    }

    private final BlockingQueue<T> idle = new LinkedBlockingQueue<>();
    private final AtomicInteger created = new AtomicInteger();
    private final Supplier<? extends T> factory;
    private final int max;
    private String name;

    private LeasePool(Builder<T> b) {
        factory = b.factory;
        max = b.max;
    }

    public Lease lease() throws InterruptedException { // refused: fault: poll, reserve and take are separate steps
        T t = idle.poll();
        if (t == null && tryReserve()) t = factory.get();
        if (t == null) t = idle.take();
        return new Lease(t);
    }

    public Optional<Lease> tryLease() { // accepted
        return Optional.ofNullable(idle.poll()).map(Lease::new);
    }

    public Lease leaseIdle(long time, TimeUnit unit) throws InterruptedException { // accepted
        T t = idle.poll(time, unit);
        return t == null ? null : new Lease(t);
    }

    public <R> R use(Function<? super T, ? extends R> work) throws InterruptedException { // refused: fault: lease, work and close
        try (Lease l = lease()) {
            return work.apply(l.get());
        }
    }

    public boolean grow() { // refused: fault: created is raised, then the item put in idle
        return tryReserve() && idle.offer(factory.get());
    }

    public int warmUp(int n) { // refused: fault: a loop of grow
        int made = 0;
        while (made < n && grow()) made++;
        return made;
    }

    public boolean lendTo(LeasePool<? super T> other) { // refused: fault: two queues
        T t = idle.poll();
        return t != null && other.idle.offer(t);
    }

    public int available() { return idle.size(); } // accepted
    public int created() { return created.get(); } // accepted
    public int room() { return max - created.get(); } // accepted
    public int inUse() { return created() - available(); } // refused: fault: two reads of two objects
    public boolean isExhausted() { return created.get() == max && idle.isEmpty(); } // refused: certain: created never falls, which is not seen

    public synchronized void setName(String name) { this.name = name; } // accepted

    public String name() { return name != null ? name : "pool"; } // refused: fault: data race on name

    boolean tryReserve() {
        for (int c = created.get(); c < max; c = created.get()) {
            if (created.compareAndSet(c, c + 1)) return true;
        }
        return false;
    }
}
