// judged with: --public --infer
package com.example.fourth;

import java.util.NoSuchElementException;
import java.util.Objects;
import java.util.OptionalLong;
import java.util.concurrent.ConcurrentHashMap;
import java.util.concurrent.ConcurrentMap;
import java.util.concurrent.locks.Lock;
import java.util.concurrent.locks.ReentrantLock;

/** Accounts by name, each with its own lock; two locks are always taken in the order of names. */
public class AccountBook {

    public enum Outcome { DONE, INSUFFICIENT, UNKNOWN, SAME }

    private static final class Account {
        final String name;
        final Lock lock = new ReentrantLock();
        long cents;
        boolean closed;

        Account(String name, long cents) {
            this.name = Objects.requireNonNull(name);
            this.cents = cents;
        }
    }

    private final ConcurrentMap<String, Account> accounts = new ConcurrentHashMap<>();

    public boolean open(String name, long initialCents) { // accepted
        return accounts.putIfAbsent(name, new Account(name, initialCents)) == null;
    }

    public boolean exists(String name) { // accepted
        return accounts.containsKey(name);
    }

    /** Closes the account and pays out the rest. */
    public OptionalLong close(String name) { // refused: alarm: (hard: two map operations), because under the lock with `!closed` the object is still in the map, so the earli
        Account a = accounts.get(name);
        if (a == null) return OptionalLong.empty();
        a.lock.lock();
        try {
            if (a.closed) return OptionalLong.empty();
            a.closed = true;
            accounts.remove(name, a);
            long rest = a.cents;
            a.cents = 0;
            return OptionalLong.of(rest);
        } finally {
            a.lock.unlock();
        }
    }

    public Outcome deposit(String name, long cents) { // refused: alarm: (hard: get, then lock), same argument: rechecks `closed` under the lock
        Account a = accounts.get(name);
        if (a == null) return Outcome.UNKNOWN;
        a.lock.lock();
        try {
            if (a.closed) return Outcome.UNKNOWN;
            a.cents += cents;
            return Outcome.DONE;
        } finally {
            a.lock.unlock();
        }
    }

    public Outcome transfer(String from, String to, long cents) { // refused: alarm: (hard), both locks in a fixed order, rechecks `closed` under both
        Account a = accounts.get(from);
        Account b = accounts.get(to);
        if (a == null || b == null) return Outcome.UNKNOWN;
        if (from.equals(to)) return Outcome.SAME;
        boolean inOrder = a.name.compareTo(b.name) < 0;
        Lock first = inOrder ? a.lock : b.lock;
        Lock second = inOrder ? b.lock : a.lock;
        first.lock();
        try {
            second.lock();
            try {
                if (a.closed || b.closed) return Outcome.UNKNOWN;
                return move(a, b, cents);
            } finally {
                second.unlock();
            }
        } finally {
            first.unlock();
        }
    }

    public long balance(String name) { // refused: fault: `closed` isn't rechecked
        Account a = accounts.get(name);
        if (a == null) throw new NoSuchElementException(name);
        return centsOf(a);
    }

    /** Lifts the account to the floor, if it lies below. */
    public void topUp(String name, long floor) { // refused: fault: check-then-act over two critical sections
        long missing = floor - balance(name);
        if (missing > 0) deposit(name, missing);
    }

    public long total() { // refused: fault: one lock at a time
        return accounts.values().stream().mapToLong(AccountBook::centsOf).sum();
    }

    private static Outcome move(Account a, Account b, long cents) {
        if (a.cents < cents) return Outcome.INSUFFICIENT;
        a.cents -= cents;
        b.cents += cents;
        return Outcome.DONE;
    }

    private static long centsOf(Account a) {
        a.lock.lock();
        try {
            return a.cents;
        } finally {
            a.lock.unlock();
        }
    }
}
