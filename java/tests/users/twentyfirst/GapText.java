// judged with: --public --infer
package com.example.twentyfirst;

import java.util.ArrayList;
import java.util.Arrays;
import java.util.List;
import java.util.function.UnaryOperator;

/**
 * Text of an editor window, stored with a gap at the caret.
 */
public class GapText {

    /** Told about each edit. */
    @FunctionalInterface
    public interface EditObserver {
        void edited(int at, int removed, String inserted);
    }

    private final Object mutex = new Object();
    private final List<EditObserver> observers = new ArrayList<>();
    private char[] chars = new char[64];
    private int gapStart;
    private int gapEnd = chars.length;
    private volatile boolean dirty;

    public void observe(EditObserver observer) { // accepted
        synchronized (observers) {
            observers.add(observer);
        }
    }

    public void insert(String s) { // refused: fault: iterates over the ArrayList of observers without its lock: B's observe adds during A's loop, ConcurrentModificationException; and an observer added after the edit is told of it
        int at;
        synchronized (mutex) {
            at = gapStart;
            put(s);
            dirty = true;
        }
        for (EditObserver o : observers) {
            o.edited(at, 0, s);
        }
    }

    public void insertAt(int position, String s) { // accepted
        synchronized (mutex) {
            moveGap(position);
            put(s);
            dirty = true;
        }
    }

    public String delete(int from, int to) { // accepted
        synchronized (mutex) {
            if (from < 0 || to < from || to > size()) {
                throw new IndexOutOfBoundsException(from + ".." + to);
            }
            moveGap(from);
            String gone = new String(chars, gapEnd, to - from);
            gapEnd += to - from;
            dirty = true;
            return gone;
        }
    }

    public boolean replace(String what, String with) { // refused: fault: A finds the text at 10, B inserts 5 characters before it, A replaces the wrong characters
        int at = text().indexOf(what);
        if (at < 0) {
            return false;
        }
        synchronized (mutex) {
            moveGap(at);
            gapEnd += what.length();
            put(with);
            dirty = true;
        }
        return true;
    }

    public void transform(UnaryOperator<String> edit) { // accepted
        synchronized (mutex) {
            String next = edit.apply(text());
            gapStart = 0;
            gapEnd = chars.length;
            put(next);
            dirty = true;
        }
    }

    public int caret() { // refused: fault: one look at the plain int gapStart without the lock
        return gapStart;
    }

    public void moveCaret(int position) { // accepted
        synchronized (mutex) {
            moveGap(position);
        }
    }

    public int length() { // accepted
        synchronized (mutex) {
            return size();
        }
    }

    public String text() { // accepted
        synchronized (mutex) {
            return new String(chars, 0, gapStart) + new String(chars, gapEnd, chars.length - gapEnd);
        }
    }

    public boolean isDirty() { // accepted
        return dirty;
    }

    /** Gives the text for saving and notes that it is saved. */
    public String save() { // refused: fault: A takes the text, B inserts and sets dirty, A clears dirty: B's edit is not saved and counts as saved
        String s = text();
        dirty = false;
        return s;
    }

    private int size() {
        return chars.length - (gapEnd - gapStart);
    }

    private void put(String s) {
        if (gapEnd - gapStart < s.length()) {
            int tail = chars.length - gapEnd;
            char[] grown = Arrays.copyOf(chars, chars.length * 2 + s.length());
            System.arraycopy(chars, gapEnd, grown, grown.length - tail, tail);
            gapEnd = grown.length - tail;
            chars = grown;
        }
        s.getChars(0, s.length(), chars, gapStart);
        gapStart += s.length();
    }

    private void moveGap(int position) {
        if (position < 0 || position > size()) {
            throw new IndexOutOfBoundsException("position " + position);
        }
        if (position < gapStart) {
            int n = gapStart - position;
            System.arraycopy(chars, position, chars, gapEnd - n, n);
            gapStart -= n;
            gapEnd -= n;
        } else if (position > gapStart) {
            int n = position - gapStart;
            System.arraycopy(chars, gapEnd, chars, gapStart, n);
            gapStart += n;
            gapEnd += n;
        }
    }
}
