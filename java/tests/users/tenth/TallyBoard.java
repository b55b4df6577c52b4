// judged with: --public --infer
package com.example.tenth;

import java.util.Collections;
import java.util.HashMap;
import java.util.Iterator;
import java.util.Map;
import java.util.TreeMap;
import java.util.Vector;

/** Counters of the server, shown on the status page. */
public class TallyBoard {
    private static volatile TallyBoard shared;
    private static int boards;

    private final Map<String, Integer> counts = Collections.synchronizedMap(new HashMap<String, Integer>());
    private final Vector<Long> samples = new Vector<Long>();
    private final long[] hist = new long[8];
    private volatile int generation;
    private String title;

    public static TallyBoard getShared() { // accepted
        if (shared == null) {
            synchronized (TallyBoard.class) {
                if (shared == null) {
                    boards++;
                    shared = new TallyBoard();
                }
            }
        }
        return shared;
    }

    public static TallyBoard createPrivate() { // accepted
        synchronized (TallyBoard.class) {
            boards++;
        }
        return new TallyBoard();
    }

    public static int getBoards() { return boards; } // refused: fault: one look at a field without its lock

    public int count(String name) { // accepted
        synchronized (counts) {
            Integer old = counts.get(name);
            int now = old == null ? 1 : old + 1;
            counts.put(name, now);
            return now;
        }
    }

    public int get(String name) { // accepted
        Integer n = counts.get(name);
        return n == null ? 0 : n;
    }

    public int getOr(String name, int other) { // refused: fault: containsKey true, then forget(name) in another thread, get is null and unboxing throws NullPointerException; in whole calls a count or other
        return counts.containsKey(name) ? counts.get(name) : other;
    }

    public boolean forget(String name) { // accepted
        return counts.remove(name) != null;
    }

    public String dump() { // refused: fault: iterates the synchronizedMap without its lock: count of a new name in another thread gives ConcurrentModificationException
        StringBuffer sb = new StringBuffer();
        for (Iterator<Map.Entry<String, Integer>> it = counts.entrySet().iterator(); it.hasNext();) {
            sb.append(it.next()).append('\n');
        }
        return sb.toString();
    }

    public Map<String, Integer> sorted() { // refused: alarm: the expert sees no interruption
        synchronized (counts) {
            return new TreeMap<String, Integer>(counts);
        }
    }

    public void sample(long v) { samples.addElement(v); } // accepted

    public void dropSamples() { samples.removeAllElements(); } // accepted

    public long sumSamples() { // refused: fault: size 1 seen, then dropSamples() in another thread, elementAt(0) throws ArrayIndexOutOfBoundsException; in whole calls a sum
        long sum = 0;
        for (int i = 0; i < samples.size(); i++) sum += samples.elementAt(i);
        return sum;
    }

    public long maxSample() { // refused: alarm: the expert sees no interruption
        synchronized (samples) {
            return samples.isEmpty() ? 0 : Collections.max(samples);
        }
    }

    public synchronized void tick(int slot) { // accepted
        hist[slot]++;
        notifyAll();
    }

    public synchronized void awaitTicks(int slot, long n) throws InterruptedException { // accepted
        while (hist[slot] < n) wait();
    }

    public long ticks(int slot) { return hist[slot]; } // refused: fault: a race on hist (long, may even be torn)

    public synchronized long[] histogram() { return hist.clone(); } // accepted

    public synchronized void addAll(TallyBoard other) { // refused: fault: locks only this: slot 0 of other read as 0, another thread runs other.tick(0) and then other.tick(1), slot 1 read as 1: this.histogram() gets 0 and 1, which other never held
        for (int i = 0; i < hist.length; i++) hist[i] += other.hist[i];
        notifyAll();
    }

    public int nextGeneration() { return ++generation; } // refused: fault: two nextGeneration() both read 0 and return 1

    public int getGeneration() { return generation; } // accepted

    public String getTitle() { // refused: fault: a race on title (lazy, unsynchronised; always the same text)
        if (title == null) title = "board of " + hist.length;
        return title;
    }
}
