package com.example.editor;

import java.util.Arrays;
import java.util.Objects;
import javax.annotation.concurrent.GuardedBy;
import javax.annotation.concurrent.ThreadSafe;

/** A buffer of text with a gap where one writes, as editors have it. */
@ThreadSafe
// judged with: --public
public class GapText implements CharSequence, Comparable<GapText> {
    private static final int SPARE = 16;

    @GuardedBy("this") private char[] chars;
    @GuardedBy("this") private int gapStart;
    @GuardedBy("this") private int gapEnd;
    @GuardedBy("this") private int changes;

    public GapText() {
        this("");
    }

    public GapText(String text) {
        chars = new char[text.length() + SPARE];
        text.getChars(0, text.length(), chars, 0);
        gapStart = text.length();
        gapEnd = chars.length;
    }

    @Override
    public synchronized int length() { // accepted
        return chars.length - (gapEnd - gapStart);
    }

    @Override
    public synchronized char charAt(int index) { // accepted
        Objects.checkIndex(index, length());
        return chars[index < gapStart ? index : index + gapEnd - gapStart];
    }

    public synchronized void insert(int at, CharSequence text) { // refused: fault: the text may be another buffer, which changes meanwhile
        moveGap(at);
        int length = text.length();
        reserve(length);
        for (int k = 0; k < length; k++) {
            chars[gapStart++] = text.charAt(k);
        }
        changes++;
    }

    public synchronized GapText insert(int at, String text) { // accepted
        moveGap(at);
        reserve(text.length());
        text.getChars(0, text.length(), chars, gapStart);
        gapStart += text.length();
        changes++;
        return this;
    }

    public synchronized void delete(int from, int to) { // accepted
        moveGap(from);
        gapEnd += to - from;
        changes++;
    }

    private void moveGap(int at) {
        if (at < gapStart) {
            int moved = gapStart - at;
            System.arraycopy(chars, at, chars, gapEnd - moved, moved);
            gapStart -= moved;
            gapEnd -= moved;
        } else if (at > gapStart) {
            int moved = at - gapStart;
            System.arraycopy(chars, gapEnd, chars, gapStart, moved);
            gapStart += moved;
            gapEnd += moved;
        }
    }

    private void reserve(int wanted) {
        if (gapEnd - gapStart < wanted) {
            char[] larger = Arrays.copyOf(chars, chars.length + wanted + SPARE);
            int tail = chars.length - gapEnd;
            System.arraycopy(chars, gapEnd, larger, larger.length - tail, tail);
            gapEnd = larger.length - tail;
            chars = larger;
        }
    }

    public void append(String text) { // refused: fault: the end is asked for in one region, and written to in another
        insert(length(), text);
    }

    public void replace(int from, int to, String text) { // refused: fault: two regions
        delete(from, to);
        insert(from, text);
    }

    public synchronized boolean replaceFirst(String before, String after) { // accepted
        int at = toString().indexOf(before);
        if (at >= 0) {
            replace(at, at + before.length(), after);
        }
        return at >= 0;
    }

    @Override
    public synchronized CharSequence subSequence(int from, int to) { // accepted
        StringBuilder part = new StringBuilder(to - from);
        for (int k = from; k < to; k++) {
            part.append(charAt(k));
        }
        return part;
    }

    @Override
    public synchronized String toString() { // accepted
        return new String(chars, 0, gapStart) + new String(chars, gapEnd, chars.length - gapEnd);
    }

    public synchronized int changes() { // accepted
        return changes;
    }

    public synchronized char[] toArray() { // accepted
        return toString().toCharArray();
    }

    public synchronized int occurrences(char wanted) { // accepted
        int found = 0;
        for (char each : toArray()) {
            found += each == wanted ? 1 : 0;
        }
        return found;
    }

    @Override
    public synchronized boolean equals(Object other) { // accepted
        return other instanceof GapText && ((GapText) other).toString().equals(toString());
    }

    @Override
    public synchronized int hashCode() { // accepted
        return toString().hashCode();
    }

    @Override
    public int compareTo(GapText other) { // refused: fault: this one and then the other
        return toString().compareTo(other.toString());
    }

    public synchronized void copy(GapText other) { // refused: fault: the other's fields are touched without its lock
        chars = other.chars.clone();
        gapStart = other.gapStart;
        gapEnd = other.gapEnd;
    }

    public boolean isModifiedSince(int before) { // accepted
        return changes() != before;
    }
}
