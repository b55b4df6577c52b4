// judged with: --public --infer
package com.example.twentythird;

import java.io.IOException;
import java.io.Writer;
import java.util.ArrayDeque;
import java.util.ArrayList;
import java.util.Arrays;
import java.util.Deque;
import java.util.List;
import java.util.Optional;
import java.util.function.Consumer;

/** A writer that cuts what it gets into lines and remembers the last of them. */
public class LineAssembler extends Writer {
    private static final int REMEMBERED = 200;

    private final List<Consumer<String>> sinks = new ArrayList<>();
    private final Deque<String> history = new ArrayDeque<>();
    private char[] buf = new char[256];
    private int start;
    private int end;
    private volatile int lines;
    private String lastLine;
    private boolean closed;

    public LineAssembler(Object lock) {
        super(lock);
    }

    public void addSink(Consumer<String> sink) { // accepted
        synchronized (lock) {
            sinks.add(sink);
        }
    }

    @Override
    public void write(char[] chars, int off, int len) throws IOException { // refused: alarm: one region under Writer.lock as far as the own state goes, lines is written once at the end; calls the alien sinks while it holds the lock (only the unlocked lastLine() can look into its middle)
        synchronized (lock) {
            ensureOpen();
            makeRoom(len);
            int found = 0;
            for (int i = off; i < off + len; i++) {
                if (chars[i] == '\n') {
                    emit();
                    found++;
                } else {
                    buf[end++] = chars[i];
                }
            }
            lines += found;
        }
    }

    /** Sends on what there is of an unfinished line. */
    @Override
    public void flush() { // refused: alarm: one region under Writer.lock as far as the own state goes; calls the alien sinks while it holds the lock
        synchronized (lock) {
            if (end > start) {
                emit();
                lines++;
            }
        }
    }

    @Override
    public void close() { // refused: fault: two regions: A flushes, B writes "x" without an end of line, A closes: "x" is pending for ever (a write before close would be flushed, one after it would throw)
        flush();
        synchronized (lock) {
            closed = true;
            sinks.clear();
        }
    }

    public synchronized int pending() { // refused: fault: wrong lock (this, not the Writer.lock given to the constructor): A reads end 10, B writes "ab\n" (start 12), A gives -2
        return end - start;
    }

    public String pendingText() { // accepted
        synchronized (lock) {
            return new String(buf, start, end - start);
        }
    }

    public int lineCount() { // accepted
        return lines;
    }

    public Optional<String> lastLine() { // refused: fault: one look at a plain field that is written under Writer.lock
        return Optional.ofNullable(lastLine);
    }

    public List<String> history() { // accepted
        synchronized (lock) {
            return List.copyOf(history);
        }
    }

    public void replay(Consumer<? super String> target) { // refused: fault: iterates the private ArrayDeque without the lock: B writes a line meanwhile: ConcurrentModificationException
        for (String line : history) {
            target.accept(line);
        }
    }

    public void writeLine(CharSequence line) throws IOException { // refused: fault: two inherited writes, each with its own region: B writes between the text and the end of line, the line is mixed
        write(line.toString());
        write('\n');
    }

    private void ensureOpen() throws IOException {
        if (closed) throw new IOException("closed");
    }

    private void makeRoom(int len) {
        if (end + len <= buf.length) return;
        char[] bigger = Arrays.copyOfRange(buf, start, start + Math.max(256, 2 * (end - start + len)));
        end -= start;
        start = 0;
        buf = bigger;
    }

    private void emit() {
        String line = new String(buf, start, end - start);
        start = end;
        lastLine = line;
        if (history.size() == REMEMBERED) history.removeFirst();
        history.addLast(line);
        sinks.forEach(s -> s.accept(line));
    }
}
