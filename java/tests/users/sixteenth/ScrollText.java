// judged with: --public --infer
package com.example.sixteenth;

import java.util.concurrent.locks.Lock;
import java.util.concurrent.locks.ReadWriteLock;
import java.util.concurrent.locks.ReentrantReadWriteLock;
import java.util.stream.Stream;

/** Text of a scrolling output pane; many readers, few writers. */
public final class ScrollText {

    private final StringBuilder text = new StringBuilder();
    private final Lock read;
    private final Lock write;
    private final int limit;
    private int newlines;

    public ScrollText(int limit) {
        ReadWriteLock lock = new ReentrantReadWriteLock();
        this.read = lock.readLock();
        this.write = lock.writeLock();
        this.limit = limit;
    }

    public ScrollText append(String part) { // accepted
        write.lock();
        try {
            text.append(part);
            newlines += count(part);
        } finally {
            write.unlock();
        }
        return this;
    }

    public ScrollText appendLine(String line) { // refused: fault: b's append comes between A's line and A's newline
        return append(line).append("\n");
    }

    public boolean replaceFirst(String target, String replacement) { // refused: fault: a finds the target at 10, B trims the text, A overwrites other characters at 10 (or throws StringIndexOutOfBounds)
        int at = indexOf(target);
        if (at < 0) {
            return false;
        }
        write.lock();
        try {
            text.replace(at, at + target.length(), replacement);
            newlines += count(replacement) - count(target);
            return true;
        } finally {
            write.unlock();
        }
    }

    public int indexOf(String target) { // accepted
        read.lock();
        try {
            return text.indexOf(target);
        } finally {
            read.unlock();
        }
    }

    /** Drops the oldest characters beyond the limit. */
    public boolean trimToLimit() { // refused: alarm: the first check is repeated under the write lock; a false of the first check is right at the moment of that check
        if (length() <= limit) {
            return false;
        }
        write.lock();
        try {
            int excess = text.length() - limit;
            if (excess <= 0) {
                return false;
            }
            newlines -= count(text.substring(0, excess));
            text.delete(0, excess);
            return true;
        } finally {
            write.unlock();
        }
    }

    public int lineCount() { // refused: fault: one look at a field without its lock
        return newlines + 1;
    }

    /** The last {@code n} characters. */
    public String tail(int n) { // refused: fault: a reads length 100, B trims the text to 20, A's substring(90) throws; or B appends and A returns more than n characters
        int start = Math.max(0, length() - n);
        read.lock();
        try {
            return text.substring(start);
        } finally {
            read.unlock();
        }
    }

    public Stream<String> lines() { // accepted
        return toString().lines();
    }

    public int length() { // accepted
        read.lock();
        try {
            return text.length();
        } finally {
            read.unlock();
        }
    }

    @Override
    public String toString() { // accepted
        read.lock();
        try {
            return text.toString();
        } finally {
            read.unlock();
        }
    }

    private static int count(String s) {
        return (int) s.chars().filter(c -> c == '\n').count();
    }
}
