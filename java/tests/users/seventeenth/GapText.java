// judged with: --public --infer
package com.example.seventeenth;

import java.util.Arrays;
import java.util.function.UnaryOperator;

/**
 * Gap buffer behind the shared notes editor.
 */
public class GapText {

    private char[] chars = new char[32];
    private int gapStart;
    private int gapEnd = chars.length;

    public synchronized void moveTo(int position) { // accepted
        if (position < 0 || position > length()) {
            throw new IndexOutOfBoundsException(position);
        }
        int shift = position - gapStart;
        if (shift < 0) {
            System.arraycopy(chars, position, chars, gapEnd + shift, -shift);
        } else {
            System.arraycopy(chars, gapEnd, chars, gapStart, shift);
        }
        gapStart += shift;
        gapEnd += shift;
    }

    /** Inserts at the cursor. */
    public synchronized void type(String text) { // accepted
        ensureGap(text.length());
        text.getChars(0, text.length(), chars, gapStart);
        gapStart += text.length();
    }

    public void typeAt(int position, String text) { // refused: fault: two regions: A moves the cursor to 10, B moves it to 0, A's text lands at 0
        moveTo(position);
        type(text);
    }

    public synchronized boolean backspace() { // accepted
        if (gapStart == 0) {
            return false;
        }
        gapStart--;
        return true;
    }

    public synchronized String cut(int from, int to) { // accepted
        String removed = substring(from, to);
        moveTo(to);
        gapStart = from;
        return removed;
    }

    /** Replaces the whole text by what the operator makes of it. */
    public void rewrite(UnaryOperator<String> operator) { // refused: fault: a's operator works on the old text, B types, A stores its result: B's typing is lost
        String changed = operator.apply(toString());
        synchronized (this) {
            chars = changed.toCharArray();
            gapStart = chars.length;
            gapEnd = chars.length;
        }
    }

    public synchronized void transform(UnaryOperator<String> operator) { // accepted
        String changed = operator.apply(toString());
        gapStart = 0;
        gapEnd = chars.length;
        type(changed);
    }

    public synchronized int length() { // accepted
        return chars.length - (gapEnd - gapStart);
    }

    public char charAt(int index) { // refused: fault: a compares with gapStart, B moves the cursor, A reads chars and gapEnd of another state: a wrong or gap character
        return index < gapStart ? chars[index] : chars[index + gapEnd - gapStart];
    }

    public int cursor() { // refused: fault: one plain read without the lock, and not only stale: B's cut(2,5) sets gapStart to 5 on its way to 2, so A can return 5 (or 0 within transform), a cursor that never was between two calls
        return gapStart;
    }

    public String substring(int from, int to) { // accepted
        return toString().substring(from, to);
    }

    public boolean contains(String part) { // accepted
        return toString().contains(part);
    }

    @Override
    public synchronized String toString() { // accepted
        StringBuilder out = new StringBuilder(length());
        out.append(chars, 0, gapStart);
        out.append(chars, gapEnd, chars.length - gapEnd);
        return out.toString();
    }

    private void ensureGap(int needed) {
        if (gapEnd - gapStart >= needed) {
            return;
        }
        int tail = chars.length - gapEnd;
        char[] wider = Arrays.copyOf(chars, 2 * chars.length + needed);
        System.arraycopy(chars, gapEnd, wider, wider.length - tail, tail);
        gapEnd = wider.length - tail;
        chars = wider;
    }
}
