package com.example.text;

import java.util.Arrays;
import net.jcip.annotations.GuardedBy;
import net.jcip.annotations.ThreadSafe;

/** Text that grows, as StringBuffer. */
// judged with: --public
@ThreadSafe
public final class TextBuffer implements CharSequence, Comparable<TextBuffer> {
    @GuardedBy("this") private char[] chars = new char[16];
    @GuardedBy("this") private int count;

    @Override
    public synchronized int length() { // accepted
        return count;
    }

    @Override
    public synchronized char charAt(int index) { // accepted
        if (index < 0 || index >= count) {
            throw new StringIndexOutOfBoundsException(index);
        }
        return chars[index];
    }

    @Override
    public boolean isEmpty() { // refused: fault: count is read without its guard
        return count == 0;
    }

    public synchronized TextBuffer append(String text) { // accepted
        int length = text.length();
        ensure(count + length);
        text.getChars(0, length, chars, count);
        count += length;
        return this;
    }

    public synchronized TextBuffer append(char character) { // accepted
        ensure(count + 1);
        chars[count++] = character;
        return this;
    }

    public synchronized TextBuffer append(TextBuffer other) { // refused: fault: the other's lock is given back between its length and its text
        int length = other.length();
        ensure(count + length);
        other.getChars(0, length, chars, count);
        count += length;
        return this;
    }

    public TextBuffer appendLine(String line) { // refused: fault: two regions, another thread's text may stand in between
        append(line);
        return append('\n');
    }

    public synchronized void getChars(int from, int to, char[] target, int at) { // accepted
        if (from < 0 || to > count || from > to) {
            throw new StringIndexOutOfBoundsException();
        }
        System.arraycopy(chars, from, target, at, to - from);
    }

    public synchronized void setLength(int length) { // accepted
        ensure(length);
        for (int index = count; index < length; index++) {
            chars[index] = 0;
        }
        count = length;
    }

    public synchronized TextBuffer reverse() { // accepted
        for (int left = 0, right = count - 1; left < right; left++, right--) {
            char kept = chars[left];
            chars[left] = chars[right];
            chars[right] = kept;
        }
        return this;
    }

    @Override
    public synchronized CharSequence subSequence(int from, int to) { // accepted
        return new String(chars, from, to - from);
    }

    @Override
    public synchronized String toString() { // accepted
        return new String(chars, 0, count);
    }

    @Override
    public int compareTo(TextBuffer other) { // refused: fault: two regions of two locks
        return toString().compareTo(other.toString());
    }

    @GuardedBy("this")
    private void ensure(int wanted) {
        if (wanted > chars.length) {
            chars = Arrays.copyOf(chars, Math.max(wanted, 2 * chars.length));
        }
    }
}
