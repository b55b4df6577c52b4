package com.example.ledger;

import java.time.Instant;
import java.util.ArrayList;
import java.util.Collections;
import java.util.HashMap;
import java.util.List;
import java.util.Map;
import java.util.NoSuchElementException;

/** A bank with one lock for all accounts, and a journal of what was done. */
// judged with: --public --infer
public class Ledger {

    /** What is known of one account. */
    private static class Account {
        private final String owner;
        private long cents;
        private boolean frozen;

        Account(String owner) {
            this.owner = owner;
        }
    }

    /** One line of the journal. */
    public record Entry(Instant when, String from, String to, long cents) { }

    private final Object lock = new Object();
    private final Map<String, Account> accounts = new HashMap<>();
    private final List<Entry> journal = new ArrayList<>();
    private long moved;

    public boolean open(String number, String owner) { // accepted
        synchronized (lock) {
            if (accounts.containsKey(number)) {
                return false;
            }
            accounts.put(number, new Account(owner));
            return true;
        }
    }

    private Account find(String number) {
        Account found = accounts.get(number);
        if (found == null) {
            throw new NoSuchElementException(number);
        }
        return found;
    }

    public long balance(String number) { // accepted
        synchronized (lock) {
            return find(number).cents;
        }
    }

    public String owner(String number) { // accepted
        synchronized (lock) {
            return find(number).owner;
        }
    }

    public void deposit(String number, long cents) { // accepted
        synchronized (lock) {
            find(number).cents += cents;
            note("cash", number, cents);
        }
    }

    public boolean transfer(String from, String to, long cents) { // accepted
        synchronized (lock) {
            Account source = find(from);
            Account target = find(to);
            if (source.frozen || target.frozen || source.cents < cents) {
                return false;
            }
            source.cents -= cents;
            target.cents += cents;
            note(from, to, cents);
            return true;
        }
    }

    private void note(String from, String to, long cents) {
        journal.add(new Entry(Instant.now(), from, to, cents));
        moved += cents;
    }

    public void freeze(String number) { // accepted
        synchronized (lock) {
            find(number).frozen = true;
        }
    }

    public long total() { // accepted
        synchronized (lock) {
            long sum = 0;
            for (Account each : accounts.values()) {
                sum += each.cents;
            }
            return sum;
        }
    }

    public List<Entry> journal() { // accepted
        synchronized (lock) {
            return new ArrayList<>(journal);
        }
    }

    public int accounts() { // accepted
        synchronized (lock) {
            return accounts.size();
        }
    }

    public boolean withdrawAll(String number) { // refused: fault: the balance may change between the look and the step
        long all = balance(number);
        return all > 0 && transfer(number, "cash", all);
    }

    public long average() { // refused: fault: an account may be opened between the two
        int count = accounts();
        return count == 0 ? 0 : total() / count;
    }

    public List<String> owners(List<String> numbers) { // refused: fault: one region for each number
        List<String> all = new ArrayList<>();
        for (String number : numbers) {
            all.add(owner(number));
        }
        Collections.sort(all);
        return all;
    }

    public void close(String number) { // accepted
        synchronized (lock) {
            if (find(number).cents != 0) {
                throw new IllegalStateException("not empty: " + number);
            }
            accounts.remove(number);
        }
    }

    public long moved() { // accepted
        synchronized (lock) {
            return moved;
        }
    }
}
