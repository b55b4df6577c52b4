// judged with: --public --infer
package com.example.first;

import java.util.ArrayDeque;
import java.util.Deque;
import java.util.List;
import java.util.concurrent.CopyOnWriteArrayList;
import java.util.function.Consumer;
import java.util.stream.Stream;

/** An editable text with undo and redo; thread safe. */
public class UndoableText {
    public sealed interface Edit permits Insert, Delete {
        Edit inverse();
    }
    public record Insert(int at, String text) implements Edit {
        public Edit inverse() { return new Delete(at, text); } // accepted
    }
    public record Delete(int at, String text) implements Edit {
        public Edit inverse() { return new Insert(at, text); } // accepted
    }

    private final StringBuilder text = new StringBuilder();
    private final Deque<Edit> undo = new ArrayDeque<>();
    private final Deque<Edit> redo = new ArrayDeque<>();
    private boolean modified;
    private final List<Consumer<? super Edit>> listeners = new CopyOnWriteArrayList<>();

    public void addListener(Consumer<? super Edit> l) { // accepted
        listeners.add(l);
    }

    public synchronized void append(String s) { // accepted
        perform(new Insert(text.length(), s));
    }

    public synchronized void insert(int at, String s) { // accepted
        if (at < 0 || at > text.length()) throw new IndexOutOfBoundsException(at);
        perform(new Insert(at, s));
    }

    public synchronized String delete(int from, int to) { // accepted
        String gone = text.substring(from, to);
        perform(new Delete(from, gone));
        return gone;
    }

    /** Replaces a range; tells the listeners of both halves. */
    public void replace(int from, int to, String with) { // refused: fault: two critical sections and listeners called in the middle
        String gone = delete(from, to);
        fire(new Delete(from, gone));
        insert(from, with);
        fire(new Insert(from, with));
    }

    public synchronized boolean undo() { return shift(undo, redo); } // accepted
    public synchronized boolean redo() { return shift(redo, undo); } // accepted

    public synchronized int undoAll() { // accepted
        int n = 0;
        while (undo()) n++;
        return n;
    }

    public void appendLine(String line) { // refused: fault: two appends
        append(line);
        append("\n");
    }

    public void appendLines(String... lines) { // accepted
        append(String.join("\n", lines) + "\n");
    }

    public void ensureTrailingNewline() { // refused: fault: check-then-act
        if (!toString().endsWith("\n")) {
            append("\n");
        }
    }

    public Stream<String> lines() { return toString().lines(); } // accepted

    public long wordCount() { // refused: alarm: as lines, then private work
        return lines().flatMap(l -> Stream.of(l.trim().split("\\s+"))).filter(w -> !w.isEmpty()).count();
    }

    public synchronized int length() { return text.length(); } // accepted

    public synchronized void markSaved() { // accepted
        modified = false;
    }

    public boolean isModified() { return modified; } // refused: fault: one look at a field without its lock
    public synchronized char charAt(int i) { return text.charAt(i); } // accepted

    public synchronized List<Edit> history() { return List.copyOf(undo); } // accepted

    @Override
    public synchronized String toString() { return text.toString(); } // accepted

    private void perform(Edit e) {
        apply(e);
        undo.push(e);
        redo.clear();
    }

    private boolean shift(Deque<Edit> from, Deque<Edit> to) {
        if (from.isEmpty()) return false;
        Edit e = from.pop().inverse();
        apply(e);
        to.push(e);
        return true;
    }

    private void apply(Edit e) {
        modified = true;
        if (e instanceof Insert i) text.insert(i.at(), i.text());
        else if (e instanceof Delete d) text.delete(d.at(), d.at() + d.text().length());
    }

    private void fire(Edit e) {
        listeners.forEach(l -> l.accept(e));
    }
}
