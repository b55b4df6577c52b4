// judged with: --public --infer
package com.example.second;

import java.io.IOException;
import java.util.*;

/** A log in memory on top of a StringBuffer, whose methods lock the buffer themselves. */
public class TextLog {
    private final StringBuffer buf = new StringBuffer(1024);
    private final List<String> tags = new ArrayList<>();
    private volatile int mark;
    private volatile String prefix = "";

    public void print(String s) { // accepted
        buf.append(s);
    }

    public void println(String s) { // refused: fault: two appends
        buf.append(s).append('\n');
    }

    public void printf(String format, Object... args) { // accepted
        buf.append(String.format(format, args));
    }

    public void prefixed(String s) { // refused: fault: a volatile read, then the append
        buf.append(prefix + s + "\n");
    }

    public void section(String title, Iterable<?> items) { // accepted
        synchronized (buf) {
            buf.append("== ").append(title).append(" ==\n");
            items.forEach(i -> buf.append(" - ").append(i).append('\n'));
        }
    }

    public void setPrefix(String p) { // accepted
        prefix = p;
    }

    public void truncate(int max) { // refused: fault: check-then-act
        if (buf.length() > max) {
            buf.setLength(max);
        }
    }

    public void dropFirst(int n) { // accepted
        synchronized (buf) {
            buf.delete(0, Math.min(n, buf.length()));
        }
    }

    public String tail(int n) { // refused: fault: length, then substring
        return buf.substring(Math.max(0, buf.length() - n));
    }

    public String lastLine() { // accepted
        String all = buf.toString();
        return all.substring(all.lastIndexOf('\n', all.length() - 2) + 1).stripTrailing();
    }

    public long lines() { // accepted
        return buf.toString().chars().filter(c -> c == '\n').count();
    }

    public String drain() { // accepted
        synchronized (buf) {
            String all = buf.toString();
            buf.setLength(0);
            return all;
        }
    }

    public boolean writeTo(Appendable out) throws IOException { // refused: fault: length and drain are separate
        if (buf.length() == 0) return false;
        out.append(drain());
        return true;
    }

    public void mark() { // refused: fault: length is read, then mark written
        mark = buf.length();
    }

    public void rollback() { // accepted
        synchronized (buf) {
            buf.setLength(Math.min(mark, buf.length()));
        }
    }

    public int length() { // accepted
        return buf.length();
    }

    public List<String> tags() { // refused: alarm: it gives the list to its caller
        return tags;
    }

    public synchronized void tag(String t) { // accepted
        if (!tags.contains(t)) tags.add(t);
    }

    public Line line() { // accepted
        return new Line();
    }

    /** Gathers the parts of one line; for one thread. */
    public class Line {
        private final StringJoiner parts = new StringJoiner(" ", "", "\n");

        public Line add(Object part) { // refused: fault: nothing keeps two threads from the same line
            parts.add(String.valueOf(part));
            return this;
        }

        public Line addPrefix() { // refused: fault: nothing keeps two threads from the same line
            return add(prefix);
        }

        public void end() { // refused: fault: nothing keeps another thread from add between the look at the parts and the append
            buf.append(parts);
        }
    }
}
