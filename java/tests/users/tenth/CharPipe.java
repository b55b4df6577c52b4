// judged with: --public --infer
package com.example.tenth;

import java.util.Enumeration;
import java.util.Vector;

/** Bounded pipe of characters between writer and reader threads. */
public class CharPipe {
    public interface CloseListener { void pipeClosed(CharPipe source); }

    private final char[] buf;
    private int head;
    private int used;
    private boolean eof;
    private final Vector<CloseListener> listeners = new Vector<CloseListener>();

    public CharPipe(int capacity) { buf = new char[capacity]; }

    public synchronized void write(char c) throws InterruptedException { // accepted
        while (used == buf.length && !eof) {
            wait();
        }
        if (eof) {
            throw new IllegalStateException("pipe closed");
        }
        put(c);
        notifyAll();
    }

    public void write(String s) throws InterruptedException { // refused: fault: write("ab") with write('x') of another thread between the two characters: peek() shows "axb"; in whole calls "abx" or "xab"
        for (int i = 0; i < s.length(); i++) {
            write(s.charAt(i));
        }
    }

    public synchronized boolean tryWrite(String s) { // accepted
        if (eof || buf.length - used < s.length()) {
            return false;
        }
        for (int i = 0; i < s.length(); i++) {
            put(s.charAt(i));
        }
        notifyAll();
        return true;
    }

    public synchronized int read() throws InterruptedException { // accepted
        while (used == 0) {
            if (eof) {
                return -1;
            }
            wait();
        }
        notifyAll();
        return get();
    }

    public synchronized int read(char[] dst, int off, int len) throws InterruptedException { // accepted
        while (used == 0 && !eof) {
            wait();
        }
        int n = Math.min(len, used);
        for (int i = 0; i < n; i++) {
            dst[off + i] = get();
        }
        notifyAll();
        return n;
    }

    public String readLine() throws InterruptedException { // refused: fault: pipe "ab\n": readLine takes a, another thread's read() returns b, readLine goes on and returns "a"; in whole calls read() returns a (and the line is "b") or the line is "ab" and read() gets no b of it
        StringBuffer line = new StringBuffer();
        int c = read();
        while (c != -1 && c != '\n') {
            line.append((char) c);
            c = read();
        }
        return line.toString();
    }

    public synchronized String peek() { // accepted
        char[] copy = new char[used];
        for (int i = 0; i < used; i++) {
            copy[i] = buf[(head + i) % buf.length];
        }
        return new String(copy);
    }

    public synchronized int skip(int n) { // accepted
        int skipped = Math.min(n, used);
        head = (head + skipped) % buf.length;
        used -= skipped;
        notifyAll();
        return skipped;
    }

    public synchronized int available() { return used; } // accepted

    public boolean isClosed() { return eof; } // refused: fault: one look at a field without its lock

    public void close() { // refused: fault: eof is set before the listeners are told: another thread's addCloseListener(l) begins after read() gave it -1 (the pipe is closed), and l is still told; in whole calls a listener added after the close is never told
        synchronized (this) {
            eof = true;
            notifyAll();
        }
        for (Enumeration<CloseListener> e = listeners.elements(); e.hasMoreElements();) {
            e.nextElement().pipeClosed(this);
        }
    }

    public void addCloseListener(CloseListener l) { listeners.addElement(l); } // accepted

    private void put(char c) {
        buf[(head + used++) % buf.length] = c;
    }

    private char get() {
        char c = buf[head];
        head = (head + 1) % buf.length;
        used--;
        return c;
    }
}
