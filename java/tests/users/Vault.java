package com.example.vault;

import java.time.Instant;
import java.util.ArrayList;
import java.util.Comparator;
import java.util.HashMap;
import java.util.List;
import java.util.Map;
import java.util.Optional;
import java.util.OptionalLong;
import java.util.SortedSet;
import java.util.TreeSet;
import java.util.concurrent.atomic.AtomicLong;
import java.util.concurrent.locks.Lock;
import java.util.concurrent.locks.ReadWriteLock;
import java.util.concurrent.locks.ReentrantReadWriteLock;
import java.util.function.ToLongFunction;

/** A bank whose accounts are kept under one lock for readers and one for writers. */
// judged with: --public --infer
public class Vault {

    /** What became of an order. */
    public sealed interface Result permits Done, Denied {
        default boolean isDone() { // accepted
            return this instanceof Done;
        }
    }

    public record Done(long balance) implements Result {
    }

    public record Denied(String reason) implements Result {
    }

    private record Entry(long amount, Instant at) {
        String line() {
            return amount < 0 ? -amount + " out at " + at : amount + " in at " + at;
        }
    }

    /** One account. */
    private static final class Account {
        private final String owner;
        private final List<Entry> history = new ArrayList<>();
        private long balance;
        private boolean frozen;

        private Account(String owner) {
            this.owner = owner;
        }

        private Done book(long amount) {
            balance = Math.addExact(balance, amount);
            history.add(new Entry(amount, Instant.now()));
            return new Done(balance);
        }
    }

    private static final AtomicLong NEXT = new AtomicLong(1000);
    private final ReadWriteLock lock = new ReentrantReadWriteLock();
    private final Lock reading = lock.readLock();
    private final Lock writing = lock.writeLock();
    private final Map<Long, Account> accounts = new HashMap<>();
    private long reserve;
    private volatile boolean closed;

    public long open(String owner) { // refused: fault: the number is drawn in one step, and the account known in another
        long number = NEXT.getAndIncrement();
        writing.lock();
        try {
            accounts.put(number, new Account(owner));
        } finally {
            writing.unlock();
        }
        return number;
    }

    public OptionalLong balance(long number) { // accepted
        reading.lock();
        try {
            var account = accounts.get(number);
            return account == null ? OptionalLong.empty() : OptionalLong.of(account.balance);
        } finally {
            reading.unlock();
        }
    }

    private Optional<Denied> refusal(Account account, long amount) {
        if (account == null) {
            return Optional.of(new Denied("no such account"));
        } else if (account.frozen) {
            return Optional.of(new Denied("frozen"));
        }
        return account.balance < amount ? Optional.of(new Denied("too little")) : Optional.empty();
    }

    public Result deposit(long number, long amount) { // accepted
        writing.lock();
        try {
            var account = accounts.get(number);
            var denied = refusal(account, 0);
            return denied.isPresent() ? denied.get() : account.book(amount);
        } finally {
            writing.unlock();
        }
    }

    public Result withdraw(long number, long amount) { // accepted
        writing.lock();
        try {
            var account = accounts.get(number);
            return refusal(account, amount).<Result>map(denied -> denied).orElseGet(() -> account.book(-amount));
        } finally {
            writing.unlock();
        }
    }

    public Result transfer(long from, long to, long amount) { // accepted
        writing.lock();
        try {
            if (!accounts.containsKey(to)) {
                return new Denied("no such account");
            }
            Result taken = withdraw(from, amount);
            return taken instanceof Denied denied ? denied : deposit(to, amount);
        } finally {
            writing.unlock();
        }
    }

    public Result transferInSteps(long from, long to, long amount) { // refused: fault: the money is nowhere in between
        Result taken = withdraw(from, amount);
        return taken.isDone() ? deposit(to, amount) : taken;
    }

    public long total() { // accepted
        reading.lock();
        try {
            return accounts.values().stream().mapToLong(account -> account.balance).sum();
        } finally {
            reading.unlock();
        }
    }

    public long reserve() { // accepted
        reading.lock();
        try {
            return reserve;
        } finally {
            reading.unlock();
        }
    }

    public long wealth() { // refused: fault: interest may be paid between the two regions
        return total() + reserve();
    }

    public Optional<String> richest() { // accepted
        reading.lock();
        try {
            return accounts.values().stream().max(Comparator.comparingLong(account -> account.balance))
                .map(account -> account.owner);
        } finally {
            reading.unlock();
        }
    }

    public List<String> statement(long number) { // accepted
        reading.lock();
        try {
            var account = accounts.get(number);
            return account == null ? List.of() : account.history.stream().map(Entry::line).toList();
        } finally {
            reading.unlock();
        }
    }

    public SortedSet<String> owners() { // accepted
        var owners = new TreeSet<String>();
        reading.lock();
        try {
            for (var each : accounts.entrySet()) {
                owners.add(each.getValue().owner + " #" + each.getKey());
            }
        } finally {
            reading.unlock();
        }
        return owners;
    }

    public void payInterest(double rate) { // accepted
        writing.lock();
        try {
            accounts.values().forEach(account -> {
                long interest = Math.round(account.balance * rate);
                account.book(interest);
                reserve -= interest;
            });
        } finally {
            writing.unlock();
        }
    }

    public void payBonus(ToLongFunction<String> bonus) { // accepted
        writing.lock();
        try {
            accounts.values().forEach(account -> account.book(bonus.applyAsLong(account.owner)));
        } finally {
            writing.unlock();
        }
    }

    public boolean freeze(long number) { // accepted
        writing.lock();
        try {
            return Optional.ofNullable(accounts.get(number)).filter(account -> !account.frozen)
                .map(account -> account.frozen = true).orElse(false);
        } finally {
            writing.unlock();
        }
    }

    public void merge(long from, long into) { // accepted
        writing.lock();
        try {
            Account source = accounts.remove(from);
            Account target = accounts.get(into);
            if (source != null && target != null) {
                target.history.addAll(source.history);
                target.balance += source.balance;
            }
        } finally {
            writing.unlock();
        }
    }

    public long ensure(String owner) { // refused: fault: somebody else may open it between the two regions
        long found = -1;
        reading.lock();
        try {
            for (Map.Entry<Long, Account> each : accounts.entrySet()) {
                found = each.getValue().owner.equals(owner) ? each.getKey() : found;
            }
        } finally {
            reading.unlock();
        }
        return found < 0 ? open(owner) : found;
    }

    public boolean isClosed() { // accepted
        return closed;
    }

    public Result withdrawWhileOpen(long number, long amount) { // refused: fault: it may be closed between the look and the region
        return closed ? new Denied("closed") : withdraw(number, amount);
    }

    public void close() { // accepted
        writing.lock();
        try {
            closed = true;
        } finally {
            writing.unlock();
        }
    }
}
