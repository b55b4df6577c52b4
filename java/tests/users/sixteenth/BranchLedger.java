// judged with: --public --infer
package com.example.sixteenth;

import java.util.ArrayList;
import java.util.HashMap;
import java.util.List;
import java.util.Map;
import java.util.concurrent.CopyOnWriteArrayList;
import java.util.function.Consumer;
import java.util.stream.Stream;

/** The accounts of one branch, with a journal of all postings. */
public class BranchLedger {

    private enum Status { OPEN, FROZEN, CLOSED }

    public record Entry(String account, long cents) { }

    private static final class Account {
        private final String id;
        private long balance;
        private Status status = Status.OPEN;

        Account(String id) {
            this.id = id;
        }
    }

    private final Map<String, Account> accounts = new HashMap<>();
    private final List<Entry> journal = new ArrayList<>();
    private final List<Consumer<? super Entry>> listeners = new CopyOnWriteArrayList<>();

    public synchronized void open(String id) { // accepted
        if (accounts.putIfAbsent(id, new Account(id)) != null) {
            throw new IllegalArgumentException("account exists: " + id);
        }
    }

    public synchronized void deposit(String id, long cents) { // accepted
        post(active(id), cents);
    }

    public boolean withdraw(String id, long cents) { // accepted
        synchronized (this) {
            Account account = active(id);
            if (account.balance < cents) {
                return false;
            }
            post(account, -cents);
            return true;
        }
    }

    public synchronized boolean transfer(String from, String to, long cents) { // refused: alarm: synchronized, withdraw re-enters the same monitor; listeners are called under the lock between the halves, so only a re-entrant listener (same thread) sees half a transfer
        Account target = active(to);
        if (!withdraw(from, cents)) {
            return false;
        }
        post(target, cents);
        return true;
    }

    /** Credits interest to all open accounts. */
    public void accrueInterest(int basisPoints) { // refused: fault: a reads balance 1000, B withdraws 1000, A deposits interest on money that is gone; total() sees half of the accounts credited; an account closed after the list was made makes it throw half-way
        List<String> ids = new ArrayList<>();
        synchronized (this) {
            accounts.values().stream().filter(a -> a.status == Status.OPEN).forEach(a -> ids.add(a.id));
        }
        for (String id : ids) {
            long interest = balance(id) * basisPoints / 10_000;
            if (interest > 0) {
                deposit(id, interest);
            }
        }
    }

    public synchronized long balance(String id) { // accepted
        return known(id).balance;
    }

    public synchronized long total() { // accepted
        return accounts.values().stream().mapToLong(a -> a.balance).sum();
    }

    public boolean isFrozen(String id) { // refused: fault: hashMap.get without the lock while B's open() resizes the table: A misses a frozen account and answers false (and status is read unlocked too)
        Account account = accounts.get(id);
        return account != null && account.status == Status.FROZEN;
    }

    public synchronized void freeze(String id) { // accepted
        active(id).status = Status.FROZEN;
    }

    /** Pays out the rest and closes the account. */
    public synchronized long close(String id) { // accepted
        Account account = active(id);
        long rest = account.balance;
        post(account, -rest);
        account.status = Status.CLOSED;
        return rest;
    }

    public synchronized Stream<Entry> entriesOf(String id) { // refused: fault: the stream is lazy and runs after the lock is released: B deposits while A's terminal operation traverses the ArrayList (ConcurrentModificationException or a later state)
        return journal.stream().filter(e -> e.account().equals(id));
    }

    public synchronized void addListener(Consumer<? super Entry> listener) { // accepted
        listeners.add(listener);
    }

    private void post(Account account, long cents) {
        account.balance += cents;
        Entry entry = new Entry(account.id, cents);
        journal.add(entry);
        listeners.forEach(l -> l.accept(entry));
    }

    private Account known(String id) {
        return java.util.Optional.ofNullable(accounts.get(id)).orElseThrow();
    }

    private Account active(String id) {
        Account account = known(id);
        if (account.status != Status.OPEN) {
            throw new IllegalStateException(id + " is " + account.status);
        }
        return account;
    }
}
