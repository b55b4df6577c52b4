// judged with: --public --infer
package com.example.third;

import java.util.*;
import java.util.function.Consumer;
import java.util.function.UnaryOperator;

/** Text as lines. Every change raises the version. */
public class LineBuffer implements Iterable<String> {
    public record Memento(List<String> lines, long version) { }

    private final List<String> lines = new ArrayList<>();
    private long version;
    private volatile Consumer<? super LineBuffer> observer = b -> { };

    public synchronized void add(String line) { // accepted
        lines.add(line);
        version++;
    }

    public void addText(String text) { // refused: fault: one critical section per line
        text.lines().forEach(this::add);
    }

    public synchronized void addBlock(String text) { // accepted
        text.lines().forEach(this::add);
    }

    public synchronized String get(int i) { return lines.get(i); } // accepted
    public synchronized int size() { return lines.size(); } // accepted
    public synchronized long version() { return version; } // accepted

    public String getOrEmpty(int i) { return i < size() ? get(i) : ""; } // refused: fault: check-then-act

    public synchronized String remove(int i) { // accepted
        version++;
        return lines.remove(i);
    }

    public synchronized void insert(int i, String line) { // accepted
        lines.add(i, line);
        version++;
    }

    public void move(int from, int to) { // refused: fault: two critical sections with the observer in the middle
        String line = remove(from);
        observer.accept(this);
        insert(to, line);
        observer.accept(this);
    }

    public synchronized void swap(int i, int j) { // accepted
        Collections.swap(lines, i, j);
        version++;
    }

    public synchronized void sort(Comparator<? super String> order) { // accepted
        lines.sort(order);
        version++;
    }

    public synchronized Memento save() { // accepted
        return new Memento(List.copyOf(lines), version);
    }

    public synchronized void restore(Memento m) { // refused: alarm: synchronized
        lines.clear();
        lines.addAll(m.lines());
        version++;
    }

    /** Computes on a copy, outside the lock; starts again when someone else was faster. */
    public void edit(UnaryOperator<List<String>> f) { // refused: alarm: optimistic: a failed turn changes nothing
        while (true) {
            Memento before = save();
            List<String> after = f.apply(before.lines());
            synchronized (this) {
                if (version == before.version()) {
                    restore(new Memento(after, version));
                    return;
                }
            }
        }
    }

    public void mapLines(UnaryOperator<String> f) { // refused: fault: save, then restore without a test of the version
        List<String> mapped = save().lines().stream().map(f).toList();
        restore(new Memento(mapped, 0));
    }

    public boolean contains(String line) { return save().lines().contains(line); } // refused: alarm: one critical section

    public void addUnique(String line) { // refused: fault: the check is in one critical section and the add in another
        synchronized (this) { if (contains(line)) return; }
        add(line);
    }

    public String text() { return String.join("\n", save().lines()); } // refused: alarm: one critical section

    public String join(String separator) { // refused: fault: the iterator locks for each line only
        StringJoiner j = new StringJoiner(separator);
        for (String line : this) j.add(line);
        return j.toString();
    }

    public void observe(Consumer<? super LineBuffer> o) { observer = o; } // accepted

    @Override
    public Iterator<String> iterator() { // accepted
        return new Iterator<>() {
            private int at;

            public boolean hasNext() { return at < size(); } // accepted

            public String next() {
                synchronized (LineBuffer.this) {
                    if (!hasNext()) throw new NoSuchElementException();
                    return lines.get(at++);
                }
            }
        };
    }
}
