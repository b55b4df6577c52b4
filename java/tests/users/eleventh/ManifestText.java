// judged with: --public --infer
package com.example.eleventh;

import java.io.IOException;
import java.util.Arrays;

/** Growing text of a cargo manifest. */
public class ManifestText implements CharSequence {

    private char[] value = new char[64];
    private int count;
    private int lines = -1;

    public synchronized ManifestText append(CharSequence text) { // accepted
        String s = text.toString();
        ensure(count + s.length());
        s.getChars(0, s.length(), value, count);
        lines = -1;
        count += s.length();
        return this;
    }

    public ManifestText appendLine(String line) { // refused: fault: two regions: T2 appends between the line and its line end
        append(line);
        return append("\n");
    }

    public synchronized ManifestText insert(int at, String s) { // accepted
        return replace(at, at, s);
    }

    public synchronized ManifestText delete(int from, int to) { // accepted
        return replace(from, to, "");
    }

    public synchronized ManifestText replace(int from, int to, String s) { // accepted
        if (from < 0 || from > to || to > count) {
            throw new IndexOutOfBoundsException(from + ".." + to + " of " + count);
        }
        int newCount = count - (to - from) + s.length();
        ensure(newCount);
        System.arraycopy(value, to, value, from + s.length(), count - to);
        s.getChars(0, s.length(), value, from);
        lines = -1;
        count = newCount;
        return this;
    }

    public synchronized void substitute(char from, char to) { // accepted
        for (int i = 0; i < count; i++) {
            if (value[i] == from) {
                value[i] = to;
            }
        }
        lines = -1;
    }

    @Override
    public synchronized int length() { return count; } // accepted

    @Override
    public boolean isEmpty() { return count == 0; } // refused: fault: one look at a field without its lock

    @Override
    public synchronized char charAt(int index) { // accepted
        if (index < 0 || index >= count) {
            throw new IndexOutOfBoundsException(index);
        }
        return value[index];
    }

    @Override
    public synchronized CharSequence subSequence(int from, int to) { // accepted
        if (to > count) {
            throw new IndexOutOfBoundsException(to);
        }
        return new String(value, from, to - from);
    }

    public synchronized int indexOf(char c) { // accepted
        for (int i = 0; i < length(); i++) {
            if (charAt(i) == c) {
                return i;
            }
        }
        return -1;
    }

    /** Number of line ends; counted anew only after a change. */
    public int lineCount() { // refused: fault: lines is read again after the region (and before it, unlocked): T1 counts and leaves the region, T2 appends and sets lines to -1, T1 returns -1
        if (lines < 0) {
            synchronized (this) {
                int n = 0;
                for (int i = 0; i < count; i++) {
                    if (value[i] == '\n') {
                        n++;
                    }
                }
                lines = n;
            }
        }
        return lines;
    }

    public boolean sameText(ManifestText other) { // refused: fault: two snapshots at two moments: texts a="p", b="q"; T1 copies a="p", T2 changes a to "z" and then b to "p", T1 copies b="p" and returns true though they were never the same
        return other == this || toString().equals(other.toString());
    }

    public synchronized void writeTo(Appendable out) throws IOException { // refused: alarm: the expert sees no interruption
        out.append("--- manifest ---\n");
        out.append(this, 0, count);
    }

    @Override
    public synchronized String toString() { // accepted
        return new String(value, 0, count);
    }

    private void ensure(int capacity) {
        if (capacity > value.length) {
            value = Arrays.copyOf(value, Math.max(capacity, value.length * 2));
        }
    }
}
