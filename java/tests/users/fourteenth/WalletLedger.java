// judged with: --public --infer
package com.example.fourteenth;

import java.util.ArrayList;
import java.util.Collections;
import java.util.List;
import java.util.Map;
import java.util.concurrent.ConcurrentHashMap;
import java.util.concurrent.atomic.AtomicLong;

/**
 * In-memory ledger of prepaid wallets. Amounts are in cents.
 */
public class WalletLedger {

    public enum Kind { DEPOSIT, WITHDRAWAL, TRANSFER }

    public record Entry(Kind kind, String from, String to, long amount) { }

    private static final class Wallet {
        final String id;
        final long seq;
        long balance;
        boolean frozen;

        Wallet(String id, long seq) {
            this.id = id;
            this.seq = seq;
        }
    }

    private final Map<String, Wallet> wallets = new ConcurrentHashMap<>();
    private final AtomicLong sequence = new AtomicLong();
    private final List<Entry> journal = new ArrayList<>();

    public boolean open(String id) { // refused: alarm: takes effect in the one putIfAbsent; the sequence number drawn before only orders locks and is not observable
        Wallet fresh = new Wallet(id, sequence.incrementAndGet());
        return wallets.putIfAbsent(id, fresh) == null;
    }

    public long deposit(String id, long amount) { // accepted
        Wallet w = find(id);
        synchronized (w) {
            if (w.frozen) {
                throw new IllegalStateException(id + " is frozen");
            }
            w.balance += amount;
            log(new Entry(Kind.DEPOSIT, null, id, amount));
            return w.balance;
        }
    }

    public boolean withdraw(String id, long amount) { // refused: fault: check-then-act: two withdrawals both see 100 in balanceOf, then each takes 100 and the balance goes to -100
        if (balanceOf(id) < amount) {
            return false;
        }
        Wallet w = find(id);
        synchronized (w) {
            w.balance -= amount;
            log(new Entry(Kind.WITHDRAWAL, id, null, amount));
        }
        return true;
    }

    /** Moves money between two wallets; returns false if the source does not cover the amount. */
    public boolean transfer(String from, String to, long amount) { // accepted
        Wallet src = find(from);
        Wallet dst = find(to);
        if (src == dst) {
            return true;
        }
        Wallet first = src.seq < dst.seq ? src : dst;
        Wallet second = first == src ? dst : src;
        synchronized (first) {
            synchronized (second) {
                if (src.frozen || dst.frozen || src.balance < amount) {
                    return false;
                }
                src.balance -= amount;
                dst.balance += amount;
                log(new Entry(Kind.TRANSFER, from, to, amount));
                return true;
            }
        }
    }

    public long balanceOf(String id) { // accepted
        Wallet w = find(id);
        synchronized (w) {
            return w.balance;
        }
    }

    public void freeze(String id) { // accepted
        Wallet w = find(id);
        synchronized (w) {
            w.frozen = true;
        }
    }

    public long totalBalance() { // refused: fault: sums wallet by wallet: a transfer from a wallet not yet visited to one already visited makes the amount vanish from the total
        long total = 0;
        for (Wallet w : wallets.values()) {
            synchronized (w) {
                total += w.balance;
            }
        }
        return total;
    }

    public List<Entry> history() { // refused: fault: returns a live view of journal (only the wrapping is done under the lock): the caller iterates while deposit() adds, ConcurrentModificationException
        synchronized (journal) {
            return Collections.unmodifiableList(journal);
        }
    }

    public int entryCount() { // accepted
        synchronized (journal) {
            return journal.size();
        }
    }

    private Wallet find(String id) {
        Wallet w = wallets.get(id);
        if (w == null) {
            throw new IllegalArgumentException("unknown wallet " + id);
        }
        return w;
    }

    private void log(Entry e) {
        synchronized (journal) {
            journal.add(e);
        }
    }
}
