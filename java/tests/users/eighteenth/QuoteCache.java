// judged with: --public --infer
package com.example.eighteenth;

import java.util.ArrayList;
import java.util.List;
import java.util.Optional;
import java.util.concurrent.locks.StampedLock;
import java.util.function.UnaryOperator;

/** Last quotes by symbol; read by everybody all the time, written by the feed. */
public class QuoteCache {

    public record Quote(double bid, double ask) { }

    private static final class Node {
        private final String symbol;
        private double bid;
        private double ask;
        private Node next;

        Node(String symbol, Node next) {
            this.symbol = symbol;
            this.next = next;
        }
    }

    private final StampedLock lock = new StampedLock();
    private final Node[] table = new Node[256];
    private int size;

    public Optional<Quote> get(String symbol) { // refused: alarm: optimistic read that is validated after the last field, else read again under the read lock
        long stamp = lock.tryOptimisticRead();
        Optional<Quote> quote = read(symbol);
        if (!lock.validate(stamp)) {
            stamp = lock.readLock();
            try {
                quote = read(symbol);
            } finally {
                lock.unlockRead(stamp);
            }
        }
        return quote;
    }

    public double spread(String symbol) { // refused: fault: the fields are read after the validation: A validates, B puts a new bid and ask, A subtracts one new and one old; also NaN for a present quote if B wrote meanwhile
        long stamp = lock.tryOptimisticRead();
        Node node = find(symbol);
        if (node == null || !lock.validate(stamp)) {
            return Double.NaN;
        }
        return node.ask - node.bid;
    }

    public void put(String symbol, double bid, double ask) { // refused: alarm: one write-locked region
        long stamp = lock.writeLock();
        try {
            write(symbol, bid, ask);
        } finally {
            lock.unlockWrite(stamp);
        }
    }

    public boolean putIfAbsent(String symbol, double bid, double ask) { // refused: alarm: either upgraded without a gap, or looked up again under the write lock (the loop)
        long stamp = lock.readLock();
        try {
            while (find(symbol) == null) {
                long upgraded = lock.tryConvertToWriteLock(stamp);
                if (upgraded != 0) {
                    stamp = upgraded;
                    write(symbol, bid, ask);
                    return true;
                }
                lock.unlockRead(stamp);
                stamp = lock.writeLock();
            }
            return false;
        } finally {
            lock.unlock(stamp);
        }
    }

    public boolean adjust(String symbol, UnaryOperator<Quote> operator) { // refused: fault: a computes from the old quote without a lock, B puts a newer quote, A's put overwrites it
        Optional<Quote> changed = get(symbol).map(operator);
        changed.ifPresent(quote -> put(symbol, quote.bid(), quote.ask()));
        return changed.isPresent();
    }

    public List<String> symbols() { // accepted
        List<String> symbols = new ArrayList<>();
        long stamp = lock.readLock();
        try {
            for (Node bucket : table) {
                for (Node n = bucket; n != null; n = n.next) {
                    symbols.add(n.symbol);
                }
            }
        } finally {
            lock.unlockRead(stamp);
        }
        return symbols;
    }

    public int size() { // refused: fault: one look at a field without its lock
        return size;
    }

    private Optional<Quote> read(String symbol) { // refused: alarm: what is looked at without the lock is asked again
        return Optional.ofNullable(find(symbol)).map(n -> new Quote(n.bid, n.ask));
    }

    private Node find(String symbol) { // refused: alarm: what is looked at without the lock is asked again
        Node node = table[symbol.hashCode() & 255];
        while (node != null && !node.symbol.equals(symbol)) {
            node = node.next;
        }
        return node;
    }

    private void write(String symbol, double bid, double ask) {
        Node node = find(symbol);
        if (node == null) {
            int bucket = symbol.hashCode() & 255;
            node = table[bucket] = new Node(symbol, table[bucket]);
            size++;
        }
        node.bid = bid;
        node.ask = ask;
    }
}
