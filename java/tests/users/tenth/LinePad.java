// judged with: --public --infer
package com.example.tenth;

import java.util.Arrays;

/** Hand-made text buffer of the report writer. */
public class LinePad implements Cloneable {
    private static int pads;

    private char[] text = new char[16];
    private int len;
    private int edits;

    public static LinePad of(String s) { // accepted
        synchronized (LinePad.class) {
            pads++;
        }
        return new LinePad().append(s);
    }

    public static synchronized int padCount() { return pads; } // accepted

    public synchronized LinePad append(String s) { // accepted
        return insert(len, s);
    }

    public LinePad appendLine(String s) { // refused: fault: append("x") of another thread between the text and the newline: toString() gives "ax\n"; in whole calls "a\nx" or "xa\n"
        append(s);
        append("\n");
        return this;
    }

    public LinePad appendRow(String s) { // accepted
        return append(s + "\n");
    }

    public synchronized LinePad insert(int at, String s) { // accepted
        if (at < 0 || at > len) {
            throw new IndexOutOfBoundsException("at " + at);
        }
        int n = s.length();
        if (len + n > text.length) {
            text = Arrays.copyOf(text, (len + n) * 2);
        }
        System.arraycopy(text, at, text, at + n, len - at);
        s.getChars(0, n, text, at);
        len += n;
        edits++;
        return this;
    }

    public synchronized LinePad delete(int from, int to) { // accepted
        if (from < 0 || from > to || to > len) {
            throw new IndexOutOfBoundsException(from + ".." + to);
        }
        System.arraycopy(text, to, text, from, len - to);
        len -= to - from;
        edits++;
        return this;
    }

    public synchronized void clear() { // accepted
        text = new char[16];
        len = 0;
        edits++;
    }

    public boolean replaceFirst(String what, String by) { // refused: fault: pad "ab", replaceFirst("b","c") has found 1, another thread runs insert(0,"x"): "xab", then the a at 1 is replaced: "xcb"; in whole calls "xac"
        int i = toString().indexOf(what);
        if (i < 0) {
            return false;
        }
        synchronized (this) {
            delete(i, i + what.length());
            insert(i, by);
        }
        return true;
    }

    public synchronized int length() { return len; } // accepted

    public char charAt(int i) { // refused: fault: pad "ab", charAt(1) has passed the test, clear() in another thread puts a new array, text[1] is '\0'; in whole calls 'b' or IndexOutOfBoundsException
        if (i < 0 || i >= length()) {
            throw new IndexOutOfBoundsException("index " + i);
        }
        return text[i];
    }

    public void copyInto(LinePad other) { // refused: fault: holds the lock of the other only: clear() of this pad "ab" has put the new array but not yet len 0, so other.toString() is two '\0' characters, which this pad never held
        synchronized (other) {
            other.text = text.clone();
            other.len = len;
        }
    }

    public int getEdits() { return edits; } // refused: fault: one look at a field without its lock

    public boolean equals(Object o) { // refused: fault: two snapshots: this "a", other "b": takes "a" of this; another thread runs this.append("x"), then other.clear() and other.append("a"); the other's snapshot is "a": true, though the two were never equal
        return o instanceof LinePad && toString().equals(o.toString());
    }

    public synchronized int hashCode() { // accepted
        int h = 0;
        for (int i = 0; i < len; i++) h = 31 * h + text[i];
        return h;
    }

    public synchronized String toString() { return new String(text, 0, len); } // accepted

    public synchronized LinePad clone() { // accepted
        try {
            LinePad p = (LinePad) super.clone();
            p.text = text.clone();
            return p;
        } catch (CloneNotSupportedException e) {
            throw new AssertionError(e);
        }
    }
}
