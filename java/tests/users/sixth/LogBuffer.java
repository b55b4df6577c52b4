// judged with: --public --infer
package com.example.sixth;

import java.io.IOException;
import java.io.Writer;
import java.util.List;
import java.util.concurrent.CopyOnWriteArrayList;
import java.util.function.Consumer;

/** Collects log lines in memory until someone takes them. */
public class LogBuffer {

    public enum Level { DEBUG, INFO, WARN, ERROR }

    private final StringBuilder text = new StringBuilder();
    private final List<Consumer<String>> listeners = new CopyOnWriteArrayList<>();
    private int lineCount;
    private long sequence;

    public synchronized void append(String line) { // accepted
        text.append(line).append('\n');
        lineCount++;
    }

    public void log(Level level, String message) { // refused: fault: two regions: thread 1 takes number 1, thread 2's log takes 2 and appends it, thread 1 appends: line 2 stands before line 1 in toString()
        long number = nextSequence();
        String prefix = switch (level) {
            case DEBUG -> "D";
            case INFO -> "I";
            case WARN -> "W";
            case ERROR -> "E";
        };
        append(number + " " + prefix + " " + message);
    }

    public synchronized void mark(String message) { // accepted
        append(++sequence + " - " + message);
    }

    public synchronized long nextSequence() { // accepted
        return ++sequence;
    }

    public void appendAll(List<String> lines) { // refused: fault: one region per line: another thread's append("x") falls between the lines, or drain() takes half of them
        lines.forEach(this::append);
    }

    public void appendBlock(List<String> lines) { // accepted
        String block = String.join("\n", lines);
        int n = lines.size();
        if (n == 0) {
            return;
        }
        synchronized (this) {
            text.append(block).append('\n');
            lineCount += n;
        }
    }

    public void flushTo(Writer out) throws IOException { // refused: fault: copy, write and clear are separate: another thread's append("x") between toString() and clear() is neither written nor kept: lost
        String copy = toString();
        out.write(copy);
        out.flush();
        clear();
    }

    public synchronized String drain() { // accepted
        String copy = text.toString();
        clear();
        return copy;
    }

    public synchronized void clear() { // accepted
        text.setLength(0);
        lineCount = 0;
    }

    public synchronized int length() { // accepted
        return text.length();
    }

    public int lineCount() { // refused: fault: one look at a field without its lock
        return lineCount;
    }

    public boolean contains(String needle) { // accepted
        return toString().contains(needle);
    }

    public synchronized String tail(int chars) { // accepted
        int from = Math.max(0, text.length() - chars);
        return text.substring(from);
    }

    public void truncate(int maxChars) { // refused: fault: length() is too large, another thread's drain() empties the text, delete(0, negative) throws StringIndexOutOfBoundsException
        if (length() > maxChars) {
            synchronized (this) {
                text.delete(0, text.length() - maxChars);
            }
        }
    }

    public void subscribe(Consumer<String> listener) { // accepted
        listeners.add(listener);
    }

    public boolean unsubscribe(Consumer<String> listener) { // accepted
        return listeners.remove(listener);
    }

    public void publish(String line) { // refused: fault: append and notification are separate: two threads publish a and b, the text is a b but a listener gets b before a
        append(line);
        for (Consumer<String> listener : listeners) {
            listener.accept(line);
        }
    }

    @Override
    public synchronized String toString() { // accepted
        return text.toString();
    }
}
