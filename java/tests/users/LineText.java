package com.example.linetext;

import java.io.IOException;
import java.io.Writer;
import java.util.Arrays;
import java.util.BitSet;
import java.util.Iterator;
import java.util.NoSuchElementException;
import java.util.function.IntPredicate;
import java.util.function.IntUnaryOperator;

/** A text that many threads write lines to. Its characters stand in one array, and a bit says where a line ends. */
// judged with: --public --infer
public class LineText implements Appendable, CharSequence, Iterable<String> {
    private static final int LEAST = 16;

    private char[] text = new char[LEAST];
    private final BitSet ends = new BitSet();
    private int length;
    private volatile int version;

    private void room(int more) {
        int wanted = length + more;
        if (wanted > text.length) {
            text = Arrays.copyOf(text, Math.max(wanted, switch (text.length) {
                case 0 -> LEAST;
                default -> {
                    int twice = 2 * text.length;
                    yield twice < 0 ? wanted : twice;
                }
            }));
        }
    }

    @Override
    public synchronized LineText append(char letter) { // accepted
        room(1);
        text[length++] = letter;
        if (letter == '\n') {
            ends.set(length);
        }
        version++;
        return this;
    }

    @Override
    public LineText append(CharSequence more) { // refused: fault: one region for each character
        return append(more, 0, more.length());
    }

    @Override
    public LineText append(CharSequence more, int start, int end) { // refused: fault: one region for each character
        for (int k = start; k < end; k++) {
            append(more.charAt(k));
        }
        return this;
    }

    public synchronized LineText line(String line) { // refused: fault: the version goes up with each character, and is read without the lock
        append(line);
        return append('\n');
    }

    public synchronized void addAll(char... letters) { // accepted
        room(letters.length);
        System.arraycopy(letters, 0, text, length, letters.length);
        for (int k = 0; k < letters.length; k++) {
            if (letters[k] == '\n') {
                ends.set(length + k + 1);
            }
        }
        length += letters.length;
        version++;
    }

    @Override
    public synchronized int length() { // accepted
        return length;
    }

    @Override
    public synchronized char charAt(int at) { // accepted
        if (at < 0 || at >= length) {
            throw new IndexOutOfBoundsException(at);
        }
        return text[at];
    }

    @Override
    public CharSequence subSequence(int start, int end) { // refused: fault: one region for each character
        var part = new StringBuilder();
        for (int k = start; k < end; k++) {
            part.append(charAt(k));
        }
        return part;
    }

    public int version() { // accepted
        return version;
    }

    public boolean hasChangedSince(int known) { // accepted
        return version != known;
    }

    public synchronized int lines() { // accepted
        return ends.cardinality();
    }

    public char last() { // refused: fault: the length may be another one by the second call
        return charAt(length() - 1);
    }

    public synchronized String lineAt(int number) { // accepted
        int from = 0;
        for (int k = 0; k < number; k++) {
            from = ends.nextSetBit(from + 1);
            if (from < 0) {
                throw new NoSuchElementException("line " + number);
            }
        }
        int to = ends.nextSetBit(from + 1);
        return new String(text, from, (to < 0 ? length : to - 1) - from);
    }

    @Override
    public Iterator<String> iterator() { // accepted
        final var all = toString();
        return all.lines().iterator();
    }

    public synchronized void mapAll(IntUnaryOperator change) { // accepted
        for (int k = 0; k < length; k++) {
            text[k] = (char) change.applyAsInt(text[k]);
        }
        version++;
    }

    public synchronized int count(char wanted) { // accepted
        IntPredicate isWanted = at -> text[at] == wanted;
        int count = 0;
        for (int k = 0; k < length; k++) {
            count += isWanted.test(k) ? 1 : 0;
        }
        return count;
    }

    public void writeTo(Writer out) throws IOException { // refused: fault: others may see the first part written before the second
        char[] copy;
        int end;
        synchronized (this) {
            copy = text.clone();
            end = length;
        }
        out.write(copy, 0, end);
        out.flush();
    }

    public synchronized void clear() { // accepted
        length = 0;
        ends.clear();
        version++;
    }

    @Override
    public synchronized String toString() { // accepted
        return String.valueOf(text, 0, length);
    }

    @Override
    public synchronized boolean equals(Object other) { // refused: fault: it looks at the other one's characters by its own lock, one call after the other
        return other instanceof LineText that && that.length() == length && that.toString().equals(toString());
    }

    @Override
    public synchronized int hashCode() { // accepted
        return Arrays.hashCode(Arrays.copyOf(text, length));
    }
}
