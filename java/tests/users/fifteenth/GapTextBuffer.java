// judged with: --public --infer
package com.example.fifteenth;

import java.util.ArrayList;
import java.util.List;
import java.util.concurrent.locks.ReentrantLock;
import java.util.function.IntPredicate;

/**
 * Editable text with a gap at the cursor, as used by text editors.
 */
public class GapTextBuffer implements CharSequence {

    @FunctionalInterface
    public interface EditListener {
        void edited(int position, int removed, int inserted);
    }

    private final ReentrantLock editLock = new ReentrantLock();
    private final List<EditListener> listeners = new ArrayList<>();
    private char[] chars;
    private int gapStart;
    private int gapEnd;

    public GapTextBuffer(int initialCapacity) {
        chars = new char[Math.max(8, initialCapacity)];
        gapEnd = chars.length;
    }

    public void addListener(EditListener l) { // accepted
        editLock.lock();
        try {
            listeners.add(l);
        } finally {
            editLock.unlock();
        }
    }

    /** Replaces a range by other text. */
    public void replace(int from, int to, String with) { // refused: fault: deletion and insertion are two regions (with unlocked iteration of listeners between): another thread's insert() lands in between, or a reader sees the range missing
        editLock.lock();
        try {
            moveGap(from);
            gapEnd += to - from;
        } finally {
            editLock.unlock();
        }
        listeners.forEach(l -> l.edited(from, to - from, 0));
        insert(from, with);
    }

    public void insert(int at, String s) { // refused: alarm: text change and copy of the listeners in one region; the aliens are called after it from a private array, own state atomic
        EditListener[] toCall;
        editLock.lock();
        try {
            moveGap(at);
            ensureGap(s.length());
            s.getChars(0, s.length(), chars, gapStart);
            gapStart += s.length();
            toCall = listeners.toArray(new EditListener[0]);
        } finally {
            editLock.unlock();
        }
        for (EditListener l : toCall) {
            l.edited(at, 0, s.length());
        }
    }

    public int count(IntPredicate which) { // accepted
        editLock.lock();
        try {
            return (int) text().chars().filter(which).count();
        } finally {
            editLock.unlock();
        }
    }

    @Override public int length() { // refused: fault: no lock and three plain fields: insert() replaces chars and moves gapEnd between the looks, the result is no length the text ever had
        return chars.length - (gapEnd - gapStart);
    }

    @Override public char charAt(int index) { // accepted
        editLock.lock();
        try {
            return chars[index < gapStart ? index : index + gapEnd - gapStart];
        } finally {
            editLock.unlock();
        }
    }

    @Override public String subSequence(int start, int end) { // accepted
        editLock.lock();
        try {
            return text().substring(start, end);
        } finally {
            editLock.unlock();
        }
    }

    @Override public String toString() { // refused: fault: a region for every character (and length() without lock): insert() between two characters gives a mix of old and new text
        StringBuilder sb = new StringBuilder(length());
        for (int i = 0; i < length(); i++) {
            sb.append(charAt(i));
        }
        return sb.toString();
    }

    private String text() {
        return new StringBuilder().append(chars, 0, gapStart)
                .append(chars, gapEnd, chars.length - gapEnd).toString();
    }

    private void moveGap(int to) {
        if (to < gapStart) {
            System.arraycopy(chars, to, chars, gapEnd - (gapStart - to), gapStart - to);
        } else {
            System.arraycopy(chars, gapEnd, chars, gapStart, to - gapStart);
        }
        gapEnd += to - gapStart;
        gapStart = to;
    }

    private void ensureGap(int needed) {
        if (gapEnd - gapStart < needed) {
            char[] bigger = new char[chars.length * 2 + needed];
            int tail = chars.length - gapEnd;
            System.arraycopy(chars, 0, bigger, 0, gapStart);
            System.arraycopy(chars, gapEnd, bigger, bigger.length - tail, tail);
            gapEnd = bigger.length - tail;
            chars = bigger;
        }
    }
}
