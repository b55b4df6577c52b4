// judged with: --public --infer
package com.example.tenth;

import java.util.Vector;

/** Fixed stock of handles, lent to worker threads. */
public class HandleStock {
    public class Handle {
        private final int no;
        private boolean busy;

        private Handle(int no) { this.no = no; }

        public int getNo() { return no; } // accepted

        HandleStock owner() { return HandleStock.this; }
    }

    private static int made;

    private final Handle[] handles;
    private final Vector<String> journal = new Vector<String>();
    private int free;

    private HandleStock(int n, int firstNo) {
        handles = new Handle[n];
        for (int i = 0; i < n; i++) {
            handles[i] = new Handle(firstNo + i);
        }
        free = n;
    }

    public static HandleStock create(int n) { // refused: fault: static made without lock: two create(2) both read 0, both stocks have handles 0 and 1 (getNo); in whole calls the numbers differ
        int first = made;
        made += n;
        return new HandleStock(n, first);
    }

    public synchronized Handle obtain() throws InterruptedException { // refused: alarm: the handles are the own ones of the stock, which is not seen
        while (free == 0) wait();
        return lend();
    }

    public synchronized Handle obtainNow() { // refused: alarm: the handles are the own ones of the stock, which is not seen
        return free == 0 ? null : lend();
    }

    public Handle obtainIfSpare(int keep) { // refused: fault: free 2, two obtainIfSpare(1) both see 2, both get a handle and freeCount() is 0; in whole calls the second gets null
        if (freeCount() <= keep) {
            return null;
        }
        return obtainNow();
    }

    public Handle[] obtainMany(int n) throws InterruptedException { // refused: fault: free 2: freeCount() in another thread sees 1 during obtainMany(2) (and two obtainMany(2) holding one each wait forever)
        Handle[] got = new Handle[n];
        for (int i = 0; i < n; i++) got[i] = obtain();
        return got;
    }

    public synchronized void restore(Handle h) { // refused: alarm: the expert sees no interruption
        if (h.owner() != this) {
            throw new IllegalArgumentException("foreign handle " + h.no);
        }
        if (h.busy) {
            h.busy = false;
            free++;
            notify();
        }
    }

    public synchronized int restoreAll() { // refused: alarm: the expert sees no interruption
        int n = 0;
        for (Handle h : handles) {
            if (h.busy) {
                h.busy = false;
                n++;
            }
        }
        free += n;
        notifyAll();
        return n;
    }

    public synchronized int freeCount() { return free; } // accepted

    public synchronized boolean isLent(int no) { // refused: alarm: the expert sees no interruption
        Handle h = find(no);
        return h != null && h.busy;
    }

    public Handle find(int no) { // refused: alarm: the expert sees no interruption
        for (int i = 0; i < handles.length; i++) {
            if (handles[i].no == no) return handles[i];
        }
        return null;
    }

    public Vector<String> getJournal() { return journal; } // accepted: hands out the internal Vector: a caller that walks it gets ConcurrentModificationException when another thread runs obtainNow() (the call itself only reads a final field)

    public String lastEntry() { // refused: fault: not empty, then clearJournal() in another thread, then lastElement throws NoSuchElementException; in whole calls "" or an entry
        return journal.isEmpty() ? "" : journal.lastElement();
    }

    public void clearJournal() { journal.removeAllElements(); } // accepted

    public synchronized String toString() { // accepted
        return free + "/" + handles.length;
    }

    private Handle lend() {
        for (Handle h : handles) {
            if (!h.busy) {
                h.busy = true;
                free--;
                journal.addElement("lent " + h.no);
                return h;
            }
        }
        throw new IllegalStateException("no free handle");
    }
}
