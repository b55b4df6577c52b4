// judged with: --public --infer
package com.example.eighteenth;

import java.util.Collection;
import java.util.NoSuchElementException;
import java.util.concurrent.ConcurrentHashMap;
import java.util.concurrent.ConcurrentMap;
import java.util.concurrent.atomic.AtomicLong;
import java.util.concurrent.locks.Lock;
import java.util.concurrent.locks.ReentrantLock;
import java.util.function.Function;

/**
 * Accounts of an escrow agent: free money, and money held for a deal.
 */
public class EscrowBook {

    public record Balance(long free, long held) { }

    private static final class Account {
        private final Lock lock = new ReentrantLock();
        private long free;
        private long held;
        private boolean closed;

        private Account(long free) {
            this.free = free;
        }
    }

    private final ConcurrentMap<Long, Account> accounts = new ConcurrentHashMap<>();
    private final AtomicLong lastId = new AtomicLong();

    public long open(long deposit) { // refused: doubtful: id and entry are two steps: A draws 1, B draws 2 and stores it, B sees exists(2) and not exists(1), strictly impossible in any order; but nobody has been given id 1 yet, so most would call it correct
        long id = lastId.incrementAndGet();
        accounts.put(id, new Account(deposit));
        return id;
    }

    public boolean exists(long id) { // accepted
        return accounts.containsKey(id);
    }

    public long deposit(long id, long amount) { // refused: alarm: one region of the account's lock, with the closed flag checked inside it
        return on(id, account -> account.free += amount);
    }

    /** Sets money aside for a deal. */
    public boolean hold(long id, long amount) { // refused: alarm: one region of the account's lock
        return on(id, account -> {
            if (account.free < amount) {
                return false;
            }
            account.free -= amount;
            account.held += amount;
            return true;
        });
    }

    /** Pays held money out to the other party. */
    public boolean settle(long payer, long payee, long amount) { // refused: alarm: both account locks are held, taken in the order of the ids; the same account twice re-enters
        return payer < payee
                ? on(payer, from -> on(payee, to -> pay(from, to, amount)))
                : on(payee, to -> on(payer, from -> pay(from, to, amount)));
    }

    /** Gives all held money back to its owner. */
    public long cancel(long id) { // refused: fault: a reads held=100, B settles 60 of it to the other party, A gives 100 back: held is -60
        long amount = balance(id).held();
        on(id, account -> {
            account.held -= amount;
            return account.free += amount;
        });
        return amount;
    }

    public Balance balance(long id) { // refused: alarm: one region of the account's lock, an immutable record is returned
        return on(id, account -> new Balance(account.free, account.held));
    }

    public long available(long id) { // refused: fault: one look at a field without its lock
        Account account = accounts.get(id);
        return account == null ? 0 : account.free;
    }

    public long totalHeld() { // refused: fault: account by account: A reads account 1 held=0, B holds 50 there and then 70 in account 2, A reads 70 and returns 70, which the total never was; a closed account in between makes it throw
        return accounts.keySet().stream().mapToLong(id -> balance(id).held()).sum();
    }

    public boolean covers(Collection<Long> ids, long amount) { // refused: fault: a reads account 1 free=0, B deposits 100 in 1 and then holds 100 of account 2, A reads 2 free=0: not covered, although together they never had less than 100
        long sum = 0;
        for (long id : ids) {
            sum += balance(id).free();
        }
        return sum >= amount;
    }

    public boolean close(long id) { // refused: alarm: check, flag and removal in one region of the account's lock; all others check the flag under that lock
        return on(id, account -> {
            if (account.free != 0 || account.held != 0) {
                return false;
            }
            account.closed = true;
            accounts.remove(id);
            return true;
        });
    }

    private static boolean pay(Account from, Account to, long amount) {
        if (from.held < amount) {
            return false;
        }
        from.held -= amount;
        to.free += amount;
        return true;
    }

    private <R> R on(long id, Function<Account, R> action) {
        Account account = accounts.get(id);
        if (account == null) {
            throw new NoSuchElementException("account " + id);
        }
        account.lock.lock();
        try {
            if (account.closed) {
                throw new NoSuchElementException("account " + id);
            }
            return action.apply(account);
        } finally {
            account.lock.unlock();
        }
    }
}
