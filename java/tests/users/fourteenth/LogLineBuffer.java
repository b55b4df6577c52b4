// judged with: --public --infer
package com.example.fourteenth;

import java.io.IOException;
import java.io.Writer;
import java.util.List;
import java.util.concurrent.locks.ReadWriteLock;
import java.util.concurrent.locks.ReentrantReadWriteLock;
import java.util.stream.Collectors;
import java.util.stream.IntStream;

/**
 * Accumulates log text until it is flushed to a writer.
 */
public class LogLineBuffer {

    private final ReadWriteLock rw = new ReentrantReadWriteLock();
    private final StringBuilder text = new StringBuilder(512);
    private volatile int lineCount;

    public void append(String s) { // refused: alarm: one write-locked section; lineCount gets a single write, so the lock-free lineCount() sees no intermediate state
        rw.writeLock().lock();
        try {
            text.append(s);
            lineCount += newlinesIn(s);
        } finally {
            rw.writeLock().unlock();
        }
    }

    public void appendAll(List<String> lines) { // refused: alarm: the block is built from the argument (not own state), then one append
        String block = lines.stream().map(l -> l + '\n').collect(Collectors.joining());
        append(block);
    }

    public void appendf(String format, Object... args) { // refused: fault: two appends, two regions: another thread's text lands between prefix and message
        append("[" + Thread.currentThread().getName() + "] ");
        append(String.format(format, args));
    }

    public void truncate(int max) { // refused: fault: check-then-act: length() > max seen, flushTo() empties the text, then delete(0, negative) throws StringIndexOutOfBoundsException
        if (length() <= max) {
            return;
        }
        rw.writeLock().lock();
        try {
            text.delete(0, text.length() - max);
            lineCount = newlinesIn(text);
        } finally {
            rw.writeLock().unlock();
        }
    }

    public void mask(String secret) { // accepted
        rw.writeLock().lock();
        try {
            String stars = "*".repeat(secret.length());
            int at = text.indexOf(secret);
            while (at >= 0) {
                text.replace(at, at + secret.length(), stars);
                at = text.indexOf(secret, at + stars.length());
            }
        } finally {
            rw.writeLock().unlock();
        }
    }

    public int flushTo(Writer out) throws IOException { // refused: alarm: one write-locked section, single write of lineCount; alien writer called while holding the lock, own state atomic
        rw.writeLock().lock();
        try {
            int n = text.length();
            out.write(text.toString());
            text.setLength(0);
            lineCount = 0;
            return n;
        } finally {
            rw.writeLock().unlock();
        }
    }

    public int length() { // accepted
        rw.readLock().lock();
        try {
            return text.length();
        } finally {
            rw.readLock().unlock();
        }
    }

    public int lineCount() { // accepted
        return lineCount;
    }

    public IntStream chars() { // refused: fault: the stream is late-binding: text is read by the terminal operation after the read lock is released, while append() may be copying or growing it
        rw.readLock().lock();
        try {
            return text.chars();
        } finally {
            rw.readLock().unlock();
        }
    }

    @Override
    public String toString() { // accepted
        rw.readLock().lock();
        try {
            return text.toString();
        } finally {
            rw.readLock().unlock();
        }
    }

    private static int newlinesIn(CharSequence s) {
        return (int) s.chars().filter(c -> c == '\n').count();
    }
}
