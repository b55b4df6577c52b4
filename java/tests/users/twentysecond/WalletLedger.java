// judged with: --public --infer
package com.example.twentysecond;

import java.util.ArrayList;
import java.util.Collections;
import java.util.HashMap;
import java.util.List;
import java.util.Map;
import java.util.TreeMap;
import java.util.concurrent.CopyOnWriteArrayList;

/** Balances and postings of the prepaid wallets of one branch. All amounts are in cents. */
public class WalletLedger {
    public enum Kind { DEPOSIT, WITHDRAWAL, TRANSFER }

    public record Posting(int sequence, Kind kind, String wallet, long cents) {}

    public interface PostingListener {
        void posted(Posting posting);
    }

    private static final class Wallet {
        private final List<Posting> history = new ArrayList<>();
        private long balance;
    }

    private final Map<String, Wallet> wallets = new HashMap<>();
    private final List<PostingListener> listeners = new CopyOnWriteArrayList<>();
    private int sequence;

    public void addListener(PostingListener listener) { // accepted
        listeners.add(listener);
    }

    public synchronized boolean open(String id) { // accepted
        return wallets.putIfAbsent(id, new Wallet()) == null;
    }

    public synchronized long balanceOf(String id) { // accepted
        return wallet(id).balance;
    }

    public synchronized Posting deposit(String id, long cents) { // accepted
        requirePositive(cents);
        return post(Kind.DEPOSIT, id, cents);
    }

    public boolean withdraw(String id, long cents) { // refused: fault: check and act in two regions: balance 100, A and B both pass the check for 100, both post, the balance is -100
        requirePositive(cents);
        if (balanceOf(id) < cents) {
            return false;
        }
        synchronized (this) {
            post(Kind.WITHDRAWAL, id, -cents);
        }
        return true;
    }

    public void transfer(String from, String to, long cents) { // refused: fault: debit and credit in two regions with alien listeners between: B calls total() between them and money is missing (or B closes the empty target and the credit throws)
        requirePositive(cents);
        Posting debit;
        synchronized (this) {
            wallet(to);
            if (wallet(from).balance < cents) {
                throw new IllegalStateException("insufficient funds in " + from);
            }
            debit = post(Kind.TRANSFER, from, -cents);
        }
        listeners.forEach(l -> l.posted(debit));
        Posting credit;
        synchronized (this) {
            credit = post(Kind.TRANSFER, to, cents);
        }
        listeners.forEach(l -> l.posted(credit));
    }

    public synchronized long total() { // accepted
        return wallets.values().stream().mapToLong(w -> w.balance).sum();
    }

    public synchronized Map<String, Long> statement() { // accepted
        Map<String, Long> result = new TreeMap<>();
        wallets.forEach((id, w) -> result.put(id, w.balance));
        return result;
    }

    public synchronized List<Posting> historyOf(String id) { // refused: fault: live view of the private ArrayList leaves the lock: the caller iterates while B deposits: ConcurrentModificationException or a half seen list
        return Collections.unmodifiableList(wallet(id).history);
    }

    public synchronized List<Posting> recent(String id, int n) { // accepted
        List<Posting> all = wallet(id).history;
        return List.copyOf(all.subList(Math.max(0, all.size() - n), all.size()));
    }

    /** Closes an empty wallet; a wallet with money in it stays open. */
    public synchronized boolean close(String id) { // accepted
        if (wallet(id).balance != 0) {
            return false;
        }
        wallets.remove(id);
        return true;
    }

    public int postingCount() { // refused: fault: one look at the plain int sequence without the lock
        return sequence;
    }

    private Posting post(Kind kind, String id, long cents) {
        Wallet wallet = wallet(id);
        Posting posting = new Posting(++sequence, kind, id, cents);
        wallet.balance += cents;
        wallet.history.add(posting);
        return posting;
    }

    private Wallet wallet(String id) {
        Wallet wallet = wallets.get(id);
        if (wallet == null) {
            throw new IllegalArgumentException("no wallet " + id);
        }
        return wallet;
    }

    private static void requirePositive(long cents) {
        if (cents <= 0) {
            throw new IllegalArgumentException("amount " + cents);
        }
    }
}
