// judged with: --public --infer
package com.example.twentieth;

import java.time.LocalTime;
import java.util.concurrent.locks.Lock;
import java.util.concurrent.locks.ReadWriteLock;
import java.util.concurrent.locks.ReentrantReadWriteLock;

/**
 * Keeps the last characters that were written to a console.
 */
public class RollingConsole implements Appendable {

    private final ReadWriteLock rw = new ReentrantReadWriteLock();
    private final Lock reading = rw.readLock();
    private final Lock writing = rw.writeLock();
    private char[] ring;
    private int start;
    private int length;
    private long written;

    public RollingConsole(int capacity) {
        this.ring = new char[capacity];
    }

    @Override
    public RollingConsole append(CharSequence csq) { // accepted
        String s = String.valueOf(csq);
        writing.lock();
        try {
            write(s);
            return this;
        } finally {
            writing.unlock();
        }
    }

    @Override
    public RollingConsole append(CharSequence csq, int from, int to) { // accepted
        return append(String.valueOf(csq).substring(from, to));
    }

    @Override
    public RollingConsole append(char c) { // accepted
        writing.lock();
        try {
            put(c);
            return this;
        } finally {
            writing.unlock();
        }
    }

    public RollingConsole format(String pattern, Object... args) { // accepted
        return append(String.format(pattern, args));
    }

    public void log(String line) { // refused: fault: four appends: B's append comes between A's time and A's line
        append(LocalTime.now().toString()).append(' ').append(line).append('\n');
    }

    public String tail(int max) { // accepted
        reading.lock();
        try {
            int n = Math.min(max, length);
            StringBuilder sb = new StringBuilder(n);
            for (int i = length - n; i < length; i++) {
                sb.append(ring[(start + i) % ring.length]);
            }
            return sb.toString();
        } finally {
            reading.unlock();
        }
    }

    public boolean contains(String what) { // accepted
        return toString().contains(what);
    }

    public int capacity() { // refused: fault: one look at the plain field ring without the lock (its length is final)
        return ring.length;
    }

    /** Makes the console keep more or fewer characters. */
    public void resize(int capacity) { // refused: fault: A takes the tail under the read lock, B appends, A puts in the new array without B's text
        String kept = tail(capacity);
        writing.lock();
        try {
            ring = new char[capacity];
            start = 0;
            length = 0;
            for (char c : kept.toCharArray()) {
                ring[length++] = c;
            }
        } finally {
            writing.unlock();
        }
    }

    public long written() { // accepted
        reading.lock();
        try {
            return written;
        } finally {
            reading.unlock();
        }
    }

    public void clear() { // accepted
        writing.lock();
        try {
            start = 0;
            length = 0;
        } finally {
            writing.unlock();
        }
    }

    /** Moves the contents to the end of the other console. */
    public void flushTo(RollingConsole other) { // refused: fault: A copies the text over, B appends, A clears: B's text is in neither console
        other.append(toString());
        clear();
    }

    @Override
    public String toString() { // accepted
        return tail(Integer.MAX_VALUE);
    }

    private void write(String s) {
        for (int i = 0; i < s.length(); i++) {
            put(s.charAt(i));
        }
    }

    private void put(char c) {
        ring[(start + length) % ring.length] = c;
        if (length < ring.length) {
            length++;
        } else {
            start = (start + 1) % ring.length;
        }
        written++;
    }
}
