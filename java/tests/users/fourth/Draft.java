// judged with: --public --infer
package com.example.fourth;

import java.util.ArrayDeque;
import java.util.Deque;
import java.util.List;
import java.util.concurrent.CopyOnWriteArrayList;
import java.util.function.Consumer;
import java.util.function.UnaryOperator;

/** A text that several people edit, with undo and redo. */
public class Draft {
    /** The text between at and at + old.length() becomes fresh. */
    private record Edit(int at, String old, String fresh) {
        Edit inverse() { return new Edit(at, fresh, old); } // accepted
    }

    private final Object mutex = new Object();
    private final StringBuilder text = new StringBuilder();
    private final Deque<Edit> done = new ArrayDeque<>();
    private final Deque<Edit> undone = new ArrayDeque<>();
    private final List<Consumer<? super String>> listeners = new CopyOnWriteArrayList<>();
    private volatile int version;

    public void addListener(Consumer<? super String> listener) { // accepted
        listeners.add(listener);
    }

    public void append(String s) { // accepted
        synchronized (mutex) {
            perform(new Edit(text.length(), "", s));
        }
    }

    public void appendLine(String line) { // refused: fault: two critical sections and listeners called in the middle
        append(line);
        listeners.forEach(l -> l.accept(line));
        append("\n");
    }

    /** Inserts at the given place, or at the end if the text is shorter. */
    public void insert(int at, String s) { // refused: fault: the place is clamped in one critical section and used in another
        int where = Math.min(at, length());
        synchronized (mutex) {
            perform(new Edit(where, "", s));
        }
    }

    public String delete(int from, int to) { // accepted
        synchronized (mutex) {
            String cut = text.substring(from, to);
            perform(new Edit(from, cut, ""));
            return cut;
        }
    }

    /** Rewrites the whole text; the function runs without the lock, and again if someone was faster. */
    public void transform(UnaryOperator<String> f) { // refused: alarm: (hard: optimistic retry), rounds that fail have no effect
        while (true) {
            String before;
            int seen;
            synchronized (mutex) {
                before = text.toString();
                seen = version;
            }
            String after = f.apply(before);
            synchronized (mutex) {
                if (version == seen) {
                    perform(new Edit(0, before, after));
                    return;
                }
            }
        }
    }

    public boolean undo() { // accepted
        synchronized (mutex) {
            Edit e = done.pollLast();
            if (e == null) return false;
            replace(e.inverse());
            undone.addLast(e);
            return true;
        }
    }

    public boolean redo() { // accepted
        synchronized (mutex) {
            Edit e = undone.pollLast();
            if (e == null) return false;
            replace(e);
            done.addLast(e);
            return true;
        }
    }

    public int length() { // accepted
        synchronized (mutex) { return text.length(); }
    }

    public long words() { // accepted
        return toString().lines().flatMap(l -> List.of(l.split("\\s+")).stream())
                .filter(w -> !w.isEmpty()).count();
    }

    String summary() { // accepted: volatile read and then a critical section
        return "version " + version + ", " + length() + " characters";
    }

    @Override public String toString() { // accepted
        synchronized (mutex) { return text.toString(); }
    }

    private void replace(Edit e) {
        text.replace(e.at, e.at + e.old.length(), e.fresh);
        version++;
    }

    private void perform(Edit e) {
        replace(e);
        done.addLast(e);
        undone.clear();
    }
}
