// judged with: --public --infer
package com.example.first;

import java.util.*;
import java.util.concurrent.ConcurrentHashMap;
import java.util.concurrent.locks.Lock;
import java.util.concurrent.locks.ReentrantLock;
import java.util.stream.Collectors;

/** Accounts with a lock each; a pair of accounts is always locked by rising ordinal. Accounts are never removed. */
public class Bank {
    public record Statement(String id, long cents, int moves) { }

    private static final class Account {
        final String id;
        final int ordinal;
        final Lock lock = new ReentrantLock();
        long cents;
        int moves;

        Account(String id, int ordinal, long cents) {
            this.id = id;
            this.ordinal = ordinal;
            this.cents = cents;
        }

        void add(long delta) {
            cents += delta;
            moves++;
        }
    }

    private final Map<String, Account> accounts = new ConcurrentHashMap<>();
    private final Object registry = new Object();
    private int nextOrdinal;

    public boolean open(String id, long initial) { // refused: alarm: the map is written only under registry, so containsKey stays true to the put
        synchronized (registry) {
            if (accounts.containsKey(id)) return false;
            accounts.put(id, new Account(id, nextOrdinal++, initial));
            return true;
        }
    }

    public void deposit(String id, long cents) { // refused: alarm: accounts are never removed or replaced: the look-up is stable, then one critical section
        Account a = find(id);
        a.lock.lock();
        try { a.add(cents); } finally { a.lock.unlock(); }
    }

    public boolean withdraw(String id, long cents) { // refused: alarm: as deposit
        Account a = find(id);
        a.lock.lock();
        try {
            if (a.cents < cents) return false;
            a.add(-cents);
            return true;
        } finally { a.lock.unlock(); }
    }

    public boolean transfer(String from, String to, long cents) { // refused: alarm: both locks are held for test and both changes
        Account src = find(from), dst = find(to);
        Account first = src.ordinal <= dst.ordinal ? src : dst;
        Account second = first == src ? dst : src;
        first.lock.lock();
        try {
            second.lock.lock();
            try {
                if (src.cents < cents) return false;
                src.add(-cents);
                dst.add(cents);
                return true;
            } finally { second.lock.unlock(); }
        } finally { first.lock.unlock(); }
    }

    /** Like transfer, but may leave the source overdrawn. */
    public void directDebit(String from, String to, long cents) { // refused: fault: two critical sections
        deposit(from, -cents);
        deposit(to, cents);
    }

    public long empty(String id) { // refused: fault: balance then withdraw
        long all = balance(id);
        return withdraw(id, all) ? all : 0;
    }

    public long balance(String id) { return statement(id).cents(); } // refused: alarm: one call of statement, then a final field of the record

    public Statement statement(String id) { // refused: alarm: stable look-up, then one critical section that copies
        Account a = find(id);
        a.lock.lock();
        try { return new Statement(a.id, a.cents, a.moves); } finally { a.lock.unlock(); }
    }

    public long quickTotal() { return accounts.keySet().stream().mapToLong(this::balance).sum(); } // refused: fault: each account is locked by itself

    public long auditedTotal() { // refused: alarm: under registry no account is added, and all locks are held together before the first read
        synchronized (registry) {
            List<Account> all = accounts.values().stream()
                    .sorted(Comparator.comparingInt((Account a) -> a.ordinal)).collect(Collectors.toList());
            all.forEach(a -> a.lock.lock());
            try { return all.stream().mapToLong(a -> a.cents).sum(); } finally { all.forEach(a -> a.lock.unlock()); }
        }
    }

    public Optional<String> richest() { // refused: fault: each statement is taken in its own critical section
        return accounts.keySet().stream().map(this::statement)
                .max(Comparator.comparingLong(Statement::cents)).map(Statement::id);
    }

    public boolean exists(String id) { return accounts.containsKey(id); } // accepted

    private Account find(String id) {
        Account a = accounts.get(id);
        if (a == null) throw new NoSuchElementException(id);
        return a;
    }
}
