package com.example.undo;

import java.util.ArrayDeque;
import java.util.Arrays;
import java.util.Comparator;
import java.util.Deque;
import java.util.List;
import java.util.Map;
import java.util.TreeMap;
import java.util.function.IntPredicate;
import java.util.function.UnaryOperator;
import java.util.regex.Pattern;
import java.util.stream.Collectors;
import java.util.stream.IntStream;

/** A text that many threads edit, and that keeps what undoes each edit. */
// judged with: --public --infer
public class UndoText implements Comparable<UndoText>, CharSequence {

    /** What undoes an edit. */
    private sealed interface Undo permits Removal, Insertion {
    }

    private record Removal(int from, int to) implements Undo {
    }

    private record Insertion(int at, String part) implements Undo {
    }

    private static final Pattern WORD = Pattern.compile("\\w+");
    private static final int MOST = 100;
    private final StringBuilder text = new StringBuilder();
    private final Deque<Undo> undos = new ArrayDeque<>();
    private volatile int revision;

    private void keep(Undo undo) {
        if (undos.size() == MOST) {
            undos.removeLast();
        }
        undos.push(undo);
        revision++;
    }

    public synchronized void insert(int at, String part) { // accepted
        text.insert(at, part);
        keep(new Removal(at, at + part.length()));
    }

    public synchronized String delete(int from, int to) { // accepted
        var part = text.substring(from, to);
        text.delete(from, to);
        keep(new Insertion(from, part));
        return part;
    }

    public UndoText append(String part) { // accepted
        synchronized (this) {
            insert(text.length(), part);
        }
        return this;
    }

    public UndoText appendLine(String line) { // refused: fault: two regions
        return append(line).append("\n");
    }

    public synchronized boolean undo() { // accepted
        Undo last = undos.poll();
        if (last instanceof Removal removal) {
            text.delete(removal.from(), removal.to());
        } else if (last instanceof Insertion insertion) {
            text.insert(insertion.at(), insertion.part());
        }
        if (last != null) {
            revision++;
        }
        return last != null;
    }

    public synchronized int undoAll() { // refused: fault: the revision is read without the lock, and goes up with each edit
        int count = 0;
        while (undo()) {
            count++;
        }
        return count;
    }

    public synchronized int count(char wanted) { // accepted
        IntPredicate isWanted = at -> text.charAt(at) == wanted;
        int count = 0;
        for (int k = 0; k < text.length(); k++) {
            if (isWanted.test(k)) {
                count++;
            }
        }
        return count;
    }

    public synchronized int[] blanks() { // accepted
        return IntStream.range(0, text.length()).filter(k -> Character.isWhitespace(text.charAt(k))).toArray();
    }

    public synchronized int indexOf(String part, boolean ignoreCase) { // accepted
        UnaryOperator<String> form = word -> ignoreCase ? word.toLowerCase() : word;
        return form.apply(text.toString()).indexOf(form.apply(part));
    }

    public List<String> lines() { // accepted
        return toString().lines().map(String::strip).filter(line -> !line.isEmpty()).toList();
    }

    public List<String> words() { // accepted
        return WORD.matcher(toString()).results().map(found -> found.group().toLowerCase()).distinct().sorted()
            .collect(Collectors.toList());
    }

    public Map<String, Integer> histogram() { // accepted
        var counts = new TreeMap<String, Integer>(Comparator.reverseOrder());
        for (String word : toString().split("\\s+")) {
            counts.merge(word, 1, Integer::sum);
        }
        return counts;
    }

    public String longestWord() { // accepted
        return Arrays.stream(toString().split(" ")).max(Comparator.comparingInt(String::length)).orElse("");
    }

    public synchronized void replace(String old, String part) { // accepted
        int at = text.indexOf(old);
        if (at >= 0) {
            text.replace(at, at + old.length(), part);
            undos.clear();
            revision++;
        }
    }

    public synchronized void change(UnaryOperator<String> change) { // accepted
        String changed = change.apply(text.toString());
        text.setLength(0);
        text.append(changed);
        undos.clear();
        revision++;
    }

    public boolean hasChangedSince(int known) { // accepted
        return revision != known;
    }

    public int awaitChange(int known) { // refused: fault: it looks once more behind the loop
        while (revision == known) {
            Thread.onSpinWait();
        }
        return revision;
    }

    @Override
    public synchronized int length() { // accepted
        return text.length();
    }

    @Override
    public synchronized char charAt(int at) { // accepted
        return text.charAt(at);
    }

    @Override
    public synchronized CharSequence subSequence(int from, int to) { // accepted
        return text.substring(from, to);
    }

    @Override
    public boolean isEmpty() { // accepted
        return length() == 0;
    }

    public char last() { // refused: fault: the length may be another one by the second call
        return charAt(length() - 1);
    }

    @Override
    public synchronized int compareTo(UndoText other) { // accepted
        return toString().compareTo(other.toString());
    }

    public int compareLoosely(UndoText other) { // refused: fault: two regions
        return toString().compareToIgnoreCase(other.toString());
    }

    public synchronized void copyFrom(UndoText other) { // accepted
        text.setLength(0);
        text.append(other.toString());
        undos.clear();
    }

    @Override
    public synchronized String toString() { // accepted
        return text.toString();
    }
}
