// judged with: --public --infer
package com.example.thirteenth;

import java.util.ArrayDeque;
import java.util.Arrays;
import java.util.Collection;
import java.util.Collections;
import java.util.Deque;
import java.util.function.UnaryOperator;

/** Gap buffer with undo, shared by the editor panes. */
public class UndoableText {

    public record Edit(boolean insertion, int at, String text) {
        public Edit inverse() { return new Edit(!insertion, at, text); } // accepted
    }

    public record Snapshot(String text, long version) { }

    private final Deque<Edit> done = new ArrayDeque<>();
    private char[] chars = new char[32];
    private int gapStart;
    private int gapEnd = 32;
    private volatile long version;

    public synchronized void insert(int at, String text) { // accepted
        commit(new Edit(true, at, text));
    }

    public synchronized String delete(int from, int to) { // accepted
        String gone = contents().substring(from, to);
        commit(new Edit(false, from, gone));
        return gone;
    }

    public void replace(int from, int to, String text) { // refused: fault: delete and insert are two regions: T2's snapshot() sees the text without either, or T2's insert moves the place and the new text lands elsewhere
        delete(from, to);
        insert(from, text);
    }

    public boolean insertIf(long expectedVersion, int at, String text) { // refused: fault: the version is checked outside the region that inserts: T1 sees version 3 as expected, T2 inserts (version 4), T1 inserts nevertheless
        if (version != expectedVersion) return false;
        insert(at, text);
        return true;
    }

    /** Replaces the text by what the operator makes of it. */
    public void rewrite(UnaryOperator<String> operator) { // refused: alarm: the expert sees no interruption
        while (true) {
            Snapshot seen = snapshot();
            String text = operator.apply(seen.text());
            synchronized (this) {
                if (version == seen.version()) {
                    apply(new Edit(false, 0, seen.text()));
                    apply(new Edit(true, 0, text));
                    done.clear();
                    version++;
                    return;
                }
            }
        }
    }

    public synchronized boolean undo() { // accepted
        if (done.isEmpty()) return false;
        apply(done.pop().inverse());
        version++;
        return true;
    }

    public synchronized Snapshot snapshot() { // accepted
        return new Snapshot(contents(), version);
    }

    public int length() { return chars.length - (gapEnd - gapStart); } // refused: fault: three plain fields without the lock: T1 reads chars.length, T2 inserts and moves or enlarges the gap, T1 reads gapEnd and gapStart of another moment: a length that never was

    public long version() { return version; } // accepted

    public Collection<Edit> edits() { return Collections.unmodifiableCollection(done); } // refused: fault: returns a live view of the guarded ArrayDeque: the caller iterates it without the lock while T2 edits, ConcurrentModificationException or a torn picture

    private void commit(Edit edit) {
        apply(edit);
        done.push(edit);
        version++;
    }

    private void apply(Edit edit) {
        int n = edit.text().length();
        moveGap(edit.at());
        if (edit.insertion()) {
            if (gapEnd - gapStart < n) grow(n);
            edit.text().getChars(0, n, chars, gapStart);
            gapStart += n;
        } else {
            gapEnd += n;
        }
    }

    private void moveGap(int at) {
        int shift = at - gapStart;
        if (shift < 0) {
            System.arraycopy(chars, at, chars, gapEnd + shift, -shift);
        } else {
            System.arraycopy(chars, gapEnd, chars, gapStart, shift);
        }
        gapStart += shift;
        gapEnd += shift;
    }

    private void grow(int n) {
        int tail = chars.length - gapEnd;
        char[] bigger = Arrays.copyOf(chars, chars.length * 2 + n);
        System.arraycopy(chars, gapEnd, bigger, bigger.length - tail, tail);
        gapEnd = bigger.length - tail;
        chars = bigger;
    }

    private String contents() {
        return new String(chars, 0, gapStart) + new String(chars, gapEnd, chars.length - gapEnd);
    }
}
