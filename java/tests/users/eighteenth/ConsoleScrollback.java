// judged with: --public --infer
package com.example.eighteenth;

import java.util.ArrayDeque;
import java.util.Deque;
import java.util.Iterator;
import java.util.List;
import java.util.function.Consumer;
import java.util.regex.Pattern;

/**
 * What a console printed last, in lines.
 */
public class ConsoleScrollback implements Appendable {

    private final Deque<String> lines = new ArrayDeque<>();
    private final StringBuilder partial = new StringBuilder();
    private final int maxLines;
    private Consumer<? super String> onLine = line -> { };

    public ConsoleScrollback(int maxLines) {
        this.maxLines = maxLines;
    }

    @Override
    public ConsoleScrollback append(char c) { // accepted
        synchronized (lines) {
            accept(c);
        }
        return this;
    }

    @Override
    public ConsoleScrollback append(CharSequence text) { // accepted
        String copy = String.valueOf(text);
        synchronized (lines) {
            copy.chars().forEach(c -> accept((char) c));
        }
        return this;
    }

    @Override
    public ConsoleScrollback append(CharSequence text, int start, int end) { // accepted
        return append(text.subSequence(start, end));
    }

    public void println(String text) { // refused: fault: two regions: B's text comes between A's text and A's line end
        append(text);
        append('\n');
    }

    public void printf(String format, Object... args) { // accepted
        append(String.format(format, args));
    }

    public void onLine(Consumer<? super String> consumer) { // accepted
        synchronized (lines) {
            onLine = consumer;
        }
    }

    public List<String> tail(int n) { // accepted
        synchronized (lines) {
            return lines.stream().skip(Math.max(0, lines.size() - n)).toList();
        }
    }

    public Iterator<String> newestFirst() { // refused: fault: the live iterator of the ArrayDeque escapes: B prints a line while A iterates (ConcurrentModificationException or wrong lines), and A's remove() changes the deque without the lock
        synchronized (lines) {
            return lines.descendingIterator();
        }
    }

    public long count(Pattern pattern) { // refused: alarm: counts in a list that was copied in one region
        return tail(maxLines).stream().filter(pattern.asPredicate()).count();
    }

    public int lineCount() { // accepted
        synchronized (lines) {
            return lines.size();
        }
    }

    public String pending() { // refused: fault: locks partial, all writers lock lines: B appends or clears while A copies the StringBuilder (torn text or an exception); within B's append A sees half of the text
        synchronized (partial) {
            return partial.toString();
        }
    }

    public void clear() { // accepted
        synchronized (lines) {
            lines.clear();
            partial.setLength(0);
        }
    }

    public String dump() { // refused: fault: two looks: A takes the finished lines, B appends a newline, A finds nothing pending: the line that B finished is in neither part
        return String.join("\n", tail(maxLines)) + "\n" + pending();
    }

    private void accept(char c) {
        if (c != '\n') {
            partial.append(c);
            return;
        }
        String line = partial.toString();
        partial.setLength(0);
        lines.addLast(line);
        if (lines.size() > maxLines) {
            lines.removeFirst();
        }
        onLine.accept(line);
    }
}
