// judged with: --public --infer
package com.example.twentyfirst;

import java.nio.ByteBuffer;
import java.util.ArrayDeque;
import java.util.Deque;
import java.util.List;
import java.util.Optional;
import java.util.concurrent.locks.Condition;
import java.util.concurrent.locks.Lock;
import java.util.concurrent.locks.ReentrantLock;
import java.util.stream.Stream;

/**
 * Blocks of direct memory for the transfer threads.
 */
public final class BlockPool {

    public interface Block extends AutoCloseable {
        ByteBuffer buffer();

        @Override
        void close();
    }

    private final class PooledBlock implements Block {
        private final ByteBuffer buffer;
        private boolean closed;

        PooledBlock(ByteBuffer buffer) {
            this.buffer = buffer;
        }

        @Override
        public synchronized ByteBuffer buffer() { // accepted: one look at closed under the block's monitor, which close does not take (the buffer itself is meant to be handed out)
            if (closed) {
                throw new IllegalStateException("block is closed");
            }
            return buffer;
        }

        @Override
        public void close() { // refused: fault: check then act without a lock: A and B both see closed false, both give the buffer back: it is lent to two takers and lent is one too low
            if (!closed) {
                closed = true;
                giveBack(buffer);
            }
        }
    }

    private final int blocks;
    private final int blockSize;
    private final Lock gate = new ReentrantLock();
    private final Condition returned = gate.newCondition();
    private final Deque<ByteBuffer> free = new ArrayDeque<>();
    private final Deque<String> trace = new ArrayDeque<>();
    private int lent;
    private long allocated;
    private volatile long largestTransfer;

    public BlockPool(int blocks, int blockSize) {
        this.blocks = blocks;
        this.blockSize = blockSize;
    }

    public Block take() throws InterruptedException { // refused: alarm: one region; await comes before any write
        gate.lockInterruptibly();
        try {
            while (lent == blocks) {
                returned.await();
            }
            return lend();
        } finally {
            gate.unlock();
        }
    }

    public Optional<Block> tryTake() { // refused: fault: gives up when tryLock fails: B is inside available() with all blocks free, A gets empty though each uninterrupted run gives a block
        if (!gate.tryLock()) {
            return Optional.empty();
        }
        try {
            return lent == blocks ? Optional.empty() : Optional.of(lend());
        } finally {
            gate.unlock();
        }
    }

    public int available() { // accepted
        gate.lock();
        try {
            return blocks - lent;
        } finally {
            gate.unlock();
        }
    }

    public long allocatedBytes() { // accepted
        gate.lock();
        try {
            return allocated;
        } finally {
            gate.unlock();
        }
    }

    /** Drops the free blocks. */
    public int trim() { // accepted
        gate.lock();
        try {
            int n = free.size();
            free.clear();
            allocated -= (long) n * blockSize;
            return n;
        } finally {
            gate.unlock();
        }
    }

    public long largestTransfer() { // accepted
        return largestTransfer;
    }

    public void transferred(long bytes) { // refused: fault: check then act on a volatile: A (50) and B (90) both see 10, B writes 90, A writes 50
        if (bytes > largestTransfer) {
            largestTransfer = bytes;
        }
    }

    public void trace(String message) { // accepted
        synchronized (trace) {
            if (trace.size() == 1000) {
                trace.removeFirst();
            }
            trace.addLast(message);
        }
    }

    public List<String> recentTrace(int max) { // accepted
        synchronized (trace) {
            return trace.stream().skip(Math.max(0, trace.size() - max)).toList();
        }
    }

    public Stream<String> traceMatching(String part) { // refused: fault: the stream is lazy and runs after the lock is let go: A collects it while B's trace writes the ArrayDeque
        synchronized (trace) {
            return trace.stream().filter(m -> m.contains(part));
        }
    }

    private Block lend() {
        ByteBuffer buffer = free.pollFirst();
        if (buffer == null) {
            buffer = ByteBuffer.allocateDirect(blockSize);
            allocated += blockSize;
        }
        lent++;
        return new PooledBlock(buffer.clear());
    }

    private void giveBack(ByteBuffer buffer) {
        gate.lock();
        try {
            free.addFirst(buffer);
            lent--;
            returned.signal();
        } finally {
            gate.unlock();
        }
    }
}
