// judged with: --public --infer
package com.example.nineteenth;

import java.util.ArrayList;
import java.util.List;
import java.util.stream.IntStream;

/**
 * Growing transcript of a chat, with an index of the line starts.
 */
public class TranscriptBuffer implements CharSequence {

    private final StringBuilder text = new StringBuilder();
    private final List<Integer> starts = new ArrayList<>();
    private int edits;

    public synchronized TranscriptBuffer append(String s) { // accepted
        text.append(s);
        edits++;
        return this;
    }

    public synchronized TranscriptBuffer appendLine(String line) { // accepted
        starts.add(text.length());
        text.append(line).append('\n');
        edits++;
        return this;
    }

    public TranscriptBuffer appendLines(Iterable<String> lines) { // refused: fault: a region for each line: B's appendLine comes between two lines of A
        for (String line : lines) {
            appendLine(line);
        }
        return this;
    }

    public synchronized int lineCount() { // accepted
        return starts.size();
    }

    public synchronized String line(int n) { // accepted
        int from = starts.get(n);
        int to = n + 1 < starts.size() ? starts.get(n + 1) : text.length();
        return text.substring(from, to).stripTrailing();
    }

    public String lastLine() { // refused: fault: two regions: A reads lineCount()=5, B clears, A's line(4) throws IndexOutOfBoundsException
        int n = lineCount();
        return n == 0 ? "" : line(n - 1);
    }

    /** Forgets the oldest characters so that at most max are left. */
    public void trimTo(int max) { // refused: fault: locks text, everyone else locks this: A deletes characters while B's append writes into the same StringBuilder and the same list
        synchronized (text) {
            int excess = text.length() - max;
            if (excess <= 0) {
                return;
            }
            text.delete(0, excess);
            starts.removeIf(s -> s < excess);
            starts.replaceAll(s -> s - excess);
            edits++;
        }
    }

    public synchronized boolean replaceFirst(String what, String with) { // accepted
        int at = text.indexOf(what);
        if (at < 0) {
            return false;
        }
        text.replace(at, at + what.length(), with);
        int shift = with.length() - what.length();
        starts.replaceAll(s -> s > at ? s + shift : s);
        edits++;
        return true;
    }

    public int edits() { // refused: fault: one look at the plain int edits without the lock
        return edits;
    }

    public synchronized void clear() { // accepted
        text.setLength(0);
        starts.clear();
        edits++;
    }

    @Override
    public synchronized int length() { // accepted
        return text.length();
    }

    @Override
    public synchronized char charAt(int index) { // accepted
        return text.charAt(index);
    }

    @Override
    public synchronized CharSequence subSequence(int start, int end) { // accepted
        return text.substring(start, end);
    }

    @Override
    public IntStream chars() { // accepted
        return toString().chars();
    }

    @Override
    public synchronized String toString() { // accepted
        return text.toString();
    }
}
