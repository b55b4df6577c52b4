package com.example.bank;

import java.math.BigDecimal;
import java.util.Map;
import java.util.Optional;
import java.util.concurrent.ConcurrentHashMap;
import java.util.concurrent.atomic.AtomicLong;
import javax.annotation.concurrent.GuardedBy;
import javax.annotation.concurrent.ThreadSafe;

/** Accounts and transfers between them. */
// judged with: --public
@ThreadSafe
public class Bank {
    private final Map<Long, Account> accounts = new ConcurrentHashMap<>();
    private final AtomicLong lastId = new AtomicLong();

    public static class InsufficientFundsException extends RuntimeException {
        public InsufficientFundsException(String message) {
            super(message);
        }
    }

    @ThreadSafe
    public static final class Account {
        private final long id;
        @GuardedBy("this")
        private BigDecimal balance = BigDecimal.ZERO;
        @GuardedBy("this")
        private boolean closed;

        Account(long id) {
            this.id = id;
        }

        public long id() { // accepted
            return id;
        }

        public synchronized BigDecimal balance() { // accepted
            return balance;
        }

        public synchronized void deposit(BigDecimal amount) { // accepted
            check(amount);
            balance = balance.add(amount);
        }

        public synchronized void withdraw(BigDecimal amount) { // accepted
            check(amount);
            if (balance.compareTo(amount) < 0) {
                throw new InsufficientFundsException("account " + id + " has " + balance);
            }
            balance = balance.subtract(amount);
        }

        public synchronized boolean close() { // accepted
            if (closed || balance.signum() != 0) {
                return false;
            }
            closed = true;
            return true;
        }

        public boolean isClosed() { // refused: fault: closed is read without its guard
            return closed;
        }

        @GuardedBy("this")
        private void check(BigDecimal amount) {
            if (closed) {
                throw new IllegalStateException("account " + id + " is closed");
            }
            if (amount.signum() <= 0) {
                throw new IllegalArgumentException("amount " + amount);
            }
        }
    }

    public Account open() { // refused: fault: the number is taken in one step and the account is put into the map in another
        Account account = new Account(lastId.incrementAndGet());
        accounts.put(account.id(), account);
        return account;
    }

    public Optional<Account> find(long id) { // accepted
        return Optional.ofNullable(accounts.get(id));
    }

    public void transferCarelessly(Account from, Account to, BigDecimal amount) { // refused: fault: two regions
        from.withdraw(amount);
        to.deposit(amount);
    }

    public void transfer(Account from, Account to, BigDecimal amount) { // accepted
        Account first = from.id() < to.id() ? from : to;
        Account second = first == from ? to : from;
        synchronized (first) {
            synchronized (second) {
                from.withdraw(amount);
                to.deposit(amount);
            }
        }
    }

    public void transferInOrder(Account from, Account to, BigDecimal amount) { // accepted
        if (from.id() < to.id()) {
            synchronized (from) {
                synchronized (to) {
                    from.withdraw(amount);
                    to.deposit(amount);
                }
            }
        } else {
            synchronized (to) {
                synchronized (from) {
                    from.withdraw(amount);
                    to.deposit(amount);
                }
            }
        }
    }

    public BigDecimal total() { // refused: fault: one region for each account, and the map is walked over meanwhile
        BigDecimal sum = BigDecimal.ZERO;
        for (Account account : accounts.values()) {
            sum = sum.add(account.balance());
        }
        return sum;
    }
}
