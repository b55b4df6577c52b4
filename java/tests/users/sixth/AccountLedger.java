// judged with: --public --infer
package com.example.sixth;

import java.util.ArrayList;
import java.util.Collections;
import java.util.HashMap;
import java.util.LinkedHashMap;
import java.util.List;
import java.util.Map;
import java.util.NoSuchElementException;
import java.util.OptionalLong;
import java.util.Set;
import java.util.TreeSet;

/** Accounts in cents with one journal for all of them. */
public class AccountLedger {

    enum Kind { OPEN, DEPOSIT, WITHDRAW, MOVE }

    record Entry(Kind kind, String account, long amount) { }

    private static final class Account {
        long balance;

        Account(long balance) {
            this.balance = balance;
        }
    }

    private final Object lock = new Object();
    private final Map<String, Account> accounts = new HashMap<>();
    private final List<Entry> journal = new ArrayList<>();

    public boolean open(String id, long initial) { // accepted
        synchronized (lock) {
            if (accounts.containsKey(id)) {
                return false;
            }
            accounts.put(id, new Account(initial));
            journal.add(new Entry(Kind.OPEN, id, initial));
            return true;
        }
    }

    public void deposit(String id, long amount) { // accepted
        requirePositive(amount);
        synchronized (lock) {
            find(id).balance += amount;
            journal.add(new Entry(Kind.DEPOSIT, id, amount));
        }
    }

    public boolean withdraw(String id, long amount) { // accepted
        requirePositive(amount);
        synchronized (lock) {
            Account account = find(id);
            if (account.balance < amount) {
                return false;
            }
            account.balance -= amount;
            journal.add(new Entry(Kind.WITHDRAW, id, amount));
            return true;
        }
    }

    public boolean transfer(String from, String to, long amount) { // refused: fault: two regions: after withdraw(from) and before deposit(to), totalFunds() is too small by amount (a total that no order gives)
        if (!withdraw(from, amount)) {
            return false;
        }
        deposit(to, amount);
        return true;
    }

    public boolean move(String from, String to, long amount) { // accepted
        requirePositive(amount);
        synchronized (lock) {
            Account source = find(from);
            Account target = find(to);
            if (source.balance < amount) {
                return false;
            }
            source.balance -= amount;
            target.balance += amount;
            journal.add(new Entry(Kind.MOVE, from, amount));
            return true;
        }
    }

    public OptionalLong balance(String id) { // accepted
        synchronized (lock) {
            Account account = accounts.get(id);
            return account == null ? OptionalLong.empty() : OptionalLong.of(account.balance);
        }
    }

    public long totalFunds() { // accepted
        synchronized (lock) {
            return accounts.values().stream().mapToLong(a -> a.balance).sum();
        }
    }

    public Set<String> ids() { // accepted
        synchronized (lock) {
            return new TreeSet<>(accounts.keySet());
        }
    }

    public Map<String, Long> report() { // refused: fault: one region per account: report reads a=10, move(a,b,10) runs, report reads b=10: the money is in the report twice
        Map<String, Long> result = new LinkedHashMap<>();
        for (String id : ids()) {
            balance(id).ifPresent(b -> result.put(id, b));
        }
        return result;
    }

    public List<Entry> journal() { // refused: fault: it gives out a view of the list, over which others walk without the lock
        synchronized (lock) {
            return Collections.unmodifiableList(journal);
        }
    }

    public boolean close(String id) { // refused: fault: check-then-act: balance(id) is 0, another thread's deposit(id,5) returns normally, then the account is removed and close returns true: closed with 5 on it, money lost
        if (balance(id).orElse(-1) != 0) {
            return false;
        }
        synchronized (lock) {
            return accounts.remove(id) != null;
        }
    }

    public void applyInterest(int basisPoints) { // accepted
        synchronized (lock) {
            accounts.values().forEach(a -> a.balance += a.balance * basisPoints / 10_000);
        }
    }

    private Account find(String id) {
        Account account = accounts.get(id);
        if (account == null) {
            throw new NoSuchElementException(id);
        }
        return account;
    }

    private static void requirePositive(long amount) {
        if (amount <= 0) {
            throw new IllegalArgumentException("amount: " + amount);
        }
    }
}
