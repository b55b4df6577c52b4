// judged with: --public --infer
package com.example.seventh;

import java.util.Map;
import java.util.NoSuchElementException;
import java.util.Set;
import java.util.TreeMap;
import java.util.concurrent.locks.Lock;
import java.util.concurrent.locks.ReentrantLock;
import java.util.concurrent.locks.ReentrantReadWriteLock;
import java.util.function.Function;
import java.util.function.Supplier;

/** Movements hold the gate's read lock and the account's lock; the write lock alone is exclusive. */
public class BranchBank {

    record Statement(String id, long balance, int movements) { }

    private static final class Account {
        private final String id;
        private final ReentrantLock lock = new ReentrantLock();
        private long balance;
        private int movements;
        private boolean frozen;

        private Account(String id, long balance) {
            this.id = id;
            this.balance = balance;
        }

        private long lockedBalance() {
            lock.lock();
            try {
                return balance;
            } finally {
                lock.unlock();
            }
        }

        private boolean add(long amount) {
            if (frozen || balance + amount < 0) {
                return false;
            }
            balance += amount;
            movements++;
            return true;
        }
    }

    private final ReentrantReadWriteLock gate = new ReentrantReadWriteLock();
    private final Map<String, Account> accounts = new TreeMap<>();

    public boolean open(String id, long initial) { // accepted
        return exclusively(() -> accounts.putIfAbsent(id, new Account(id, initial)) == null);
    }

    public boolean deposit(String id, long amount) { // refused: alarm: the gate alone, or an account with it, guards the account: two protocols for one field
        return withAccount(id, account -> account.add(amount));
    }

    public boolean withdraw(String id, long amount) { // refused: alarm: the gate alone, or an account with it, guards the account: two protocols for one field
        return withAccount(id, account -> account.add(-amount));
    }

    public boolean transfer(String from, String to, long amount) { // refused: alarm: the gate alone, or an account with it, guards the account: two protocols for one field
        return sharing(() -> {
            Account source = find(from);
            Account target = find(to);
            boolean inOrder = from.compareTo(to) <= 0;
            Lock first = inOrder ? source.lock : target.lock;
            Lock second = inOrder ? target.lock : source.lock;
            first.lock();
            second.lock();
            try {
                return !target.frozen && source.add(-amount) && target.add(amount);
            } finally {
                second.unlock();
                first.unlock();
            }
        });
    }

    public boolean moveAll(String from, String to) { // refused: fault: balance and transfer are separate regions: balance(from) is 10, another thread's withdraw(from,4) succeeds, transfer of 10 fails: moveAll returns false and from keeps 6, although 6 could be moved whole
        return transfer(from, to, balance(from));
    }

    public void payAll(Map<String, Long> amounts) { // refused: fault: one region per account: {a=1,b=1}, another thread's total() between the deposits has grown by 1 only
        amounts.forEach(this::deposit);
    }

    public long balance(String id) { // refused: alarm: the gate alone, or an account with it, guards the account: two protocols for one field
        return withAccount(id, Account::lockedBalance);
    }

    public Statement statement(String id) { // refused: fault: two regions: balance 0 is read, another thread's deposit(id,5) runs, movements 1 is read: a Statement(0,1) that never was
        return new Statement(id, balance(id), withAccount(id, a -> a.movements));
    }

    public Statement lockedStatement(String id) { // refused: alarm: the gate alone, or an account with it, guards the account: two protocols for one field
        return withAccount(id, a -> new Statement(a.id, a.balance, a.movements));
    }

    public long total() { // refused: alarm: the gate alone, or an account with it, guards the account: two protocols for one field
        return exclusively(() -> accounts.values().stream().mapToLong(a -> a.balance).sum());
    }

    public long auditTotal() { // refused: fault: one account lock at a time: a=10 read, another thread's transfer(a,b,10) runs (the read lock is shared), b=10 read: 20 instead of 10
        return sharing(() -> accounts.values().stream().mapToLong(Account::lockedBalance).sum());
    }

    public boolean close(String id) { // refused: fault: check-then-act: balance(id) is 0, another thread's deposit(id,5) returns true, then the account is removed and close returns true with 5 on it
        return balance(id) == 0 && exclusively(() -> accounts.remove(id) != null);
    }

    public boolean closeIfEmpty(String id) { // refused: alarm: the gate alone, or an account with it, guards the account: two protocols for one field
        return exclusively(() -> find(id).balance == 0 && accounts.remove(id) != null);
    }

    public void setFrozen(String id, boolean frozen) { // accepted
        withAccount(id, account -> account.frozen = frozen);
    }

    public boolean isFrozen(String id) { // accepted: one look at a field without its lock, which is told as a data race
        return sharing(() -> find(id).frozen);
    }

    public Set<String> ids() { // refused: fault: the map's keys get out, and others change the map
        return sharing(accounts::keySet);
    }

    private <R> R withAccount(String id, Function<Account, R> action) {
        return sharing(() -> {
            Account account = find(id);
            account.lock.lock();
            try {
                return action.apply(account);
            } finally {
                account.lock.unlock();
            }
        });
    }

    private <R> R sharing(Supplier<R> action) {
        gate.readLock().lock();
        try {
            return action.get();
        } finally {
            gate.readLock().unlock();
        }
    }

    private <R> R exclusively(Supplier<R> action) {
        gate.writeLock().lock();
        try {
            return action.get();
        } finally {
            gate.writeLock().unlock();
        }
    }

    private Account find(String id) {
        Account account = accounts.get(id);
        if (account == null) {
            throw new NoSuchElementException(id);
        }
        return account;
    }
}
