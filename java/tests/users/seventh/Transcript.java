// judged with: --public --infer
package com.example.seventh;

import java.util.ArrayList;
import java.util.List;
import java.util.Optional;
import java.util.concurrent.atomic.AtomicInteger;
import java.util.concurrent.atomic.AtomicReference;
import java.util.function.Predicate;
import java.util.function.UnaryOperator;
import java.util.stream.Stream;

/** A text of lines, kept as an immutable list behind one reference. */
public class Transcript {

    record Summary(int lines, int characters) { }

    static final class Builder {
        private final List<String> initial = new ArrayList<>();
        private String separator = "\n";

        Builder line(String line) {
            initial.add(line);
            return this;
        }

        Builder separator(String text) {
            this.separator = text;
            return this;
        }

        Transcript build() {
            return new Transcript(this);
        }
    }

    private final String separator;
    private final AtomicReference<List<String>> lines;
    private final AtomicInteger edits = new AtomicInteger();

    private Transcript(Builder builder) {
        this.separator = builder.separator;
        this.lines = new AtomicReference<>(List.copyOf(builder.initial));
    }

    public static Builder builder() { // accepted
        return new Builder();
    }

    public void add(String line) { // refused: alarm: one look at an immutable list, or one change of it
        lines.updateAndGet(old -> concat(old, List.of(line)));
    }

    public void addAll(List<String> more) { // refused: alarm: one look at an immutable list, or one change of it
        List<String> copy = List.copyOf(more);
        lines.updateAndGet(old -> concat(old, copy));
    }

    public boolean addUnlessLast(String line) { // refused: fault: check-then-act: two threads see another last line and both add x, both return true and lines() ends with x, x
        List<String> current = lines.get();
        if (!current.isEmpty() && current.get(current.size() - 1).equals(line)) {
            return false;
        }
        add(line);
        return true;
    }

    public void set(int index, String line) { // refused: fault: get and set without CAS: another thread's add(x) between them is overwritten, its line is lost
        List<String> copy = new ArrayList<>(lines.get());
        copy.set(index, line);
        lines.set(List.copyOf(copy));
    }

    public void edit(UnaryOperator<String> change) { // refused: fault: two atomics: after the lines have changed and before edits is counted, another thread reads lines() new and then edits() old
        lines.updateAndGet(old -> old.stream().map(change).toList());
        edits.incrementAndGet();
    }

    public int edits() { // accepted
        return edits.get();
    }

    public int removeIf(Predicate<String> condition) { // refused: alarm: one look at an immutable list, or one change of it
        List<String> current;
        List<String> kept;
        do {
            current = lines.get();
            kept = current.stream().filter(condition.negate()).toList();
        } while (!lines.compareAndSet(current, kept));
        return current.size() - kept.size();
    }

    public List<String> lines() { // accepted
        return lines.get();
    }

    public List<String> drain() { // accepted
        return lines.getAndSet(List.of());
    }

    public void clear() { // accepted
        lines.set(List.of());
    }

    public String render() { // accepted
        return String.join(separator, lines.get());
    }

    public String last() { // refused: fault: three reads of the reference: isEmpty() is false, another thread's clear() runs, size() - 1 is -1: IndexOutOfBoundsException
        if (lines.get().isEmpty()) {
            return "";
        }
        return lines.get().get(lines.get().size() - 1);
    }

    public Optional<String> first() { // accepted
        return lines.get().stream().findFirst();
    }

    public Summary summary() { // refused: fault: two reads: size 1 is read, another thread's add("abc") runs, render() has the length of two lines: a Summary that never was
        return new Summary(lines.get().size(), render().length());
    }

    public Summary exactSummary() { // accepted
        List<String> now = lines.get();
        return new Summary(now.size(), String.join(separator, now).length());
    }

    private static List<String> concat(List<String> a, List<String> b) {
        return Stream.concat(a.stream(), b.stream()).toList();
    }
}
