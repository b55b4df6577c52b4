package com.example.text;

import java.io.Writer;
import java.io.IOException;
import java.util.ArrayDeque;
import java.util.Deque;

/** A text that grows line by line, with undo. */
// judged with: --public --infer
public class Transcript implements CharSequence {
    private final StringBuilder text = new StringBuilder();
    private final Deque<Integer> marks = new ArrayDeque<>();
    private int lines;

    public synchronized Transcript line(String line) { // accepted
        marks.push(text.length());
        text.append(line).append('\n');
        lines++;
        return this;
    }

    public synchronized boolean undo() { // accepted
        if (marks.isEmpty()) {
            return false;
        }
        text.setLength(marks.pop());
        lines--;
        return true;
    }

    @Override
    public synchronized int length() { // accepted
        return text.length();
    }

    @Override
    public synchronized char charAt(int at) { // accepted
        return text.charAt(at);
    }

    @Override
    public CharSequence subSequence(int from, int to) { // accepted
        return toString().substring(from, to);
    }

    @Override
    public synchronized String toString() { // accepted
        return text.toString();
    }

    public synchronized int lines() { // accepted
        return lines;
    }

    public char last() { // refused: fault: the text may become shorter between the two
        return charAt(length() - 1);
    }

    public synchronized void indent(int width) { // accepted
        String blanks = " ".repeat(width);
        for (int at = 0; at >= 0 && at < text.length(); ) {
            text.insert(at, blanks);
            int end = text.indexOf("\n", at);
            at = end < 0 ? -1 : end + 1;
        }
        marks.clear();
    }

    public void addAll(Iterable<String> all) { // refused: fault: one region for each line
        for (String each : all) {
            line(each);
        }
    }

    public synchronized void addAll(Transcript other) { // refused: fault: two looks at the other, each with its lock
        if (other.length() > 0) {
            text.append(other.toString());
            lines += other.lines();
        }
    }

    public synchronized int count(char wanted) { // accepted
        int found = 0;
        for (int at = 0; at < text.length(); at++) {
            if (text.charAt(at) == wanted) {
                found++;
            }
        }
        return found;
    }

    public void writeTo(Writer out) throws IOException { // refused: fault: the text and then the writer, which is everybody's
        out.write(toString());
        out.flush();
    }

    public synchronized void clear() { // accepted
        text.setLength(0);
        marks.clear();
        lines = 0;
    }

    public boolean isBlank() { // accepted
        return toString().isBlank();
    }
}
