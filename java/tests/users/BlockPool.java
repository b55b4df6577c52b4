package com.example.blocks;

import java.util.ArrayDeque;
import java.util.Arrays;
import java.util.BitSet;
import java.util.Deque;
import java.util.Optional;
import java.util.concurrent.Semaphore;
import java.util.concurrent.atomic.AtomicBoolean;
import java.util.concurrent.atomic.AtomicInteger;
import java.util.concurrent.atomic.LongAdder;
import java.util.function.ObjIntConsumer;

/** A pool of blocks of bytes in one large array. Who wants one waits for a permit. */
// judged with: --public --infer
public class BlockPool {
    private static final AtomicInteger POOLS = new AtomicInteger();

    /** A block that is lent, until it is closed. */
    public final class Block implements AutoCloseable {
        private final int number;
        private final AtomicBoolean open = new AtomicBoolean(true);

        private Block(int number) {
            this.number = number;
        }

        public int number() { // accepted
            return number;
        }

        public boolean isOpen() { // accepted
            return open.get();
        }

        public void write(int at, byte value) { // refused: fault: it may be closed between the look and the region
            if (!open.get()) {
                throw new IllegalStateException("closed");
            }
            synchronized (bytes) {
                bytes[number * size + at] = value;
            }
        }

        @Override
        public void close() { // refused: fault: it is closed, given back, and a permit given, one after the other
            if (open.compareAndSet(true, false)) {
                giveBack(number);
                permits.release();
            }
        }
    }

    private final int id = POOLS.incrementAndGet();
    private final int size;
    private final byte[] bytes;
    private final BitSet lent;
    private final Deque<Integer> recent = new ArrayDeque<>();
    private final Semaphore permits;
    private final LongAdder failures = new LongAdder();
    private int lends;

    public BlockPool(int blocks, int size) {
        this.size = size;
        bytes = new byte[Math.multiplyExact(blocks, size)];
        lent = new BitSet(blocks);
        permits = new Semaphore(blocks);
    }

    public String name() { // accepted
        return "pool " + id;
    }

    private synchronized int lend() {
        int number = recent.isEmpty() ? lent.nextClearBit(0) : recent.pop();
        lent.set(number);
        lends++;
        return number;
    }

    private synchronized void giveBack(int number) {
        lent.clear(number);
        recent.push(number);
    }

    public Block acquire() throws InterruptedException { // refused: fault: the permit is taken in one step, and the block in another
        permits.acquire();
        return new Block(lend());
    }

    public Optional<Block> tryAcquire() { // refused: fault: the same
        if (!permits.tryAcquire()) {
            failures.increment();
            return Optional.empty();
        }
        return Optional.of(new Block(lend()));
    }

    public void clear(int number) { // accepted
        synchronized (bytes) {
            Arrays.fill(bytes, number * size, (number + 1) * size, (byte) 0);
        }
    }

    public byte[] copy(int number) { // accepted
        synchronized (bytes) {
            return Arrays.copyOfRange(bytes, number * size, (number + 1) * size);
        }
    }

    public void swap(int one, int other) { // accepted
        synchronized (bytes) {
            for (int k = 0; k < size; k++) {
                byte value = bytes[one * size + k];
                bytes[one * size + k] = bytes[other * size + k];
                bytes[other * size + k] = value;
            }
        }
    }

    public synchronized int lent() { // accepted
        return lent.cardinality();
    }

    public synchronized int lends() { // accepted
        return lends;
    }

    public synchronized double share() { // accepted
        return lends == 0 ? 0 : 1.0 * lent() / lends();
    }

    public int free() { // accepted
        return permits.availablePermits();
    }

    public int all() { // refused: fault: two steps
        return free() + lent();
    }

    public long failures() { // accepted
        return failures.sum();
    }

    public synchronized int[] numbers() { // accepted
        return lent.stream().toArray();
    }

    public void forEach(ObjIntConsumer<byte[]> action) { // refused: fault: one region for each block, and the caller's function
        for (int number : numbers()) {
            action.accept(copy(number), number);
        }
    }
}
