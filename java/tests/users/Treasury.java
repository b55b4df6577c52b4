package com.example.treasury;

import java.util.Collection;
import java.util.List;
import java.util.Map;
import java.util.Optional;
import java.util.concurrent.ConcurrentHashMap;
import java.util.concurrent.atomic.AtomicInteger;
import java.util.concurrent.atomic.AtomicLong;

/** A bank whose accounts have a lock each. A transfer takes both, that of the smaller number first. */
// judged with: --public --infer
public final class Treasury {

    /** What came of a transfer. */
    public sealed interface Outcome permits Done, Refused {
    }

    /** It was done. */
    public record Done(long left) implements Outcome {
    }

    /** It wasn't. */
    public record Refused(String why) implements Outcome {
    }

    /** One account, which guards its own balance. */
    public static final class Account {
        private final int number;
        private final String owner;
        private long cents;
        private boolean closed;

        private Account(int number, String owner) {
            this.number = number;
            this.owner = owner;
        }

        public int number() { // accepted
            return number;
        }

        public String owner() { // accepted
            return owner;
        }

        public synchronized long cents() { // accepted
            return cents;
        }

        public synchronized boolean withdraw(long amount) { // accepted
            if (closed || amount > cents) {
                return false;
            }
            cents -= amount;
            return true;
        }

        public synchronized void deposit(long amount) { // accepted
            if (closed) {
                throw new IllegalStateException("account " + number + " is closed");
            }
            cents += amount;
        }
    }

    private final Map<Integer, Account> accounts = new ConcurrentHashMap<>();
    private final AtomicInteger numbers = new AtomicInteger(1000);
    private final AtomicLong turnover = new AtomicLong();

    public Account open(String owner) { // refused: fault: the number is drawn in one step and the account known in another
        Account made = new Account(numbers.incrementAndGet(), owner);
        accounts.put(made.number(), made);
        return made;
    }

    public Optional<Account> find(int number) { // accepted
        return Optional.ofNullable(accounts.get(number));
    }

    public static Outcome move(Account from, Account to, long amount) { // accepted
        if (from == to) {
            return new Refused("the same account");
        }
        Account first = from.number < to.number ? from : to;
        Account second = first == from ? to : from;
        synchronized (first) {
            synchronized (second) {
                if (from.closed || to.closed) {
                    return new Refused("closed");
                }
                if (from.cents < amount) {
                    return new Refused("short of " + (amount - from.cents));
                }
                from.cents -= amount;
                to.cents += amount;
                return new Done(from.cents);
            }
        }
    }

    public static boolean moveInTwo(Account from, Account to, long amount) { // refused: fault: the money is nowhere in between
        if (!from.withdraw(amount)) {
            return false;
        }
        to.deposit(amount);
        return true;
    }

    public static boolean swap(Account one, Account other) { // accepted
        synchronized (one) {
            synchronized (other) {
                long kept = one.cents;
                one.cents = other.cents;
                other.cents = kept;
                return one.cents != other.cents;
            }
        }
    }

    public Outcome transfer(int from, int to, long amount) { // refused: fault: two looks, the move, and the turnover
        Account source = accounts.get(from);
        Account target = accounts.get(to);
        if (source == null || target == null) {
            return new Refused("no such account");
        }
        Outcome outcome = move(source, target, amount);
        if (outcome instanceof Done) {
            turnover.addAndGet(amount);
        }
        return outcome;
    }

    public static String text(Outcome outcome) { // accepted
        if (outcome instanceof Done done) {
            return "done, " + done.left() + " are left";
        }
        return outcome instanceof Refused refused ? "refused: " + refused.why() : "unknown";
    }

    public long total() { // refused: fault: one account after the other
        long sum = 0;
        for (Account each : accounts.values()) {
            sum += each.cents();
        }
        return sum;
    }

    public static long sum(Collection<Account> some) { // refused: fault: the same
        return some.stream().mapToLong(Account::cents).sum();
    }

    public static void close(Account account) { // accepted
        synchronized (account) {
            if (account.cents != 0) {
                throw new IllegalStateException("not empty");
            }
            account.closed = true;
        }
    }

    public long turnover() { // accepted
        return turnover.get();
    }

    public List<Account> all() { // refused: fault: the map may change while it is copied
        return List.copyOf(accounts.values());
    }

    public boolean isKnown(int number) { // accepted
        return accounts.containsKey(number);
    }
}
