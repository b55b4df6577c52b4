// judged with: --public --infer
package com.example.twentythird;

import java.util.HashMap;
import java.util.Map;
import java.util.OptionalLong;
import java.util.concurrent.ConcurrentHashMap;
import java.util.concurrent.ConcurrentMap;
import java.util.concurrent.atomic.AtomicLong;
import java.util.concurrent.locks.ReentrantLock;

/** Accounts of a bank desk; every account has its own lock. */
public class TransferDesk {
    public sealed interface Outcome permits Done, Refused {}

    public record Done(long balance) implements Outcome {}

    public record Refused(String reason) implements Outcome {}

    private static final class Account {
        final long number;
        final ReentrantLock lock = new ReentrantLock();
        long balance;
        boolean frozen;
        boolean closed;

        Account(long number, long balance) {
            this.number = number;
            this.balance = balance;
        }
    }

    private final ConcurrentMap<Long, Account> accounts = new ConcurrentHashMap<>();
    private final AtomicLong numbers = new AtomicLong(1000);
    private volatile Map<String, Double> rates = Map.of();

    public long open(long initial) { // refused: fault: number taken in one step, account put in another: A has 1001, B's open returns 1002, B's balance(1001) is empty although 1001 must have been opened before 1002 (visible only to a caller who tries numbers not given to it)
        long number = numbers.incrementAndGet();
        accounts.put(number, new Account(number, initial));
        return number;
    }

    public Outcome deposit(long number, long amount) { // accepted
        Account account = accounts.get(number);
        if (account == null) return new Refused("unknown");
        account.lock.lock();
        try {
            if (account.closed) return new Refused("unknown");
            if (account.frozen) return new Refused("blocked");
            account.balance += amount;
            return new Done(account.balance);
        } finally {
            account.lock.unlock();
        }
    }

    public Outcome transfer(long from, long to, long amount) { // refused: alarm: both account locks (in order of the numbers) are held from the checks to the last write; closed is checked again under them
        Account source = accounts.get(from);
        Account target = accounts.get(to);
        if (source == null || target == null) return new Refused("unknown");
        Account first = from < to ? source : target;
        Account second = from < to ? target : source;
        first.lock.lock();
        second.lock.lock();
        try {
            if (source.closed || target.closed) return new Refused("unknown");
            if (source.frozen || target.frozen) return new Refused("blocked");
            if (source.balance < amount) return new Refused("insufficient funds");
            source.balance -= amount;
            target.balance += amount;
            return new Done(source.balance);
        } finally {
            second.lock.unlock();
            first.lock.unlock();
        }
    }

    public OptionalLong balance(long number) { // accepted
        Account account = accounts.get(number);
        if (account == null) return OptionalLong.empty();
        account.lock.lock();
        try {
            return account.closed ? OptionalLong.empty() : OptionalLong.of(account.balance);
        } finally {
            account.lock.unlock();
        }
    }

    public boolean close(long number) { // accepted
        Account account = accounts.get(number);
        if (account == null) return false;
        account.lock.lock();
        try {
            if (account.closed || account.balance != 0) return false;
            account.closed = true;
            return accounts.remove(number, account);
        } finally {
            account.lock.unlock();
        }
    }

    public long holdings() { // refused: fault: account by account: A has read 1001 (100), B transfers 100 from 1002 to 1001, A reads 1002 (0): 100 are missing
        return accounts.keySet().stream().mapToLong(n -> balance(n).orElse(0)).sum();
    }

    public boolean isFrozen(long number) { // refused: fault: one look at the plain boolean without the account's lock
        Account account = accounts.get(number);
        return account != null && account.frozen;
    }

    public void freeze(long number, boolean frozen) { // refused: alarm: look-up, then one region under the account's lock (on a closed account it has no effect that counts)
        Account account = accounts.get(number);
        if (account == null) return;
        account.lock.lock();
        try {
            account.frozen = frozen;
        } finally {
            account.lock.unlock();
        }
    }

    public void setRate(String currency, double rate) { // refused: fault: copy, change, publish without lock or CAS: A and B copy the same map, the rate of the first is lost
        Map<String, Double> copy = new HashMap<>(rates);
        copy.put(currency, rate);
        rates = Map.copyOf(copy);
    }

    public double rate(String currency) { // accepted
        return rates.getOrDefault(currency, 1.0);
    }
}
