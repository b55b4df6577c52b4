package com.example.branch;

import java.util.Comparator;
import java.util.EnumMap;
import java.util.HashMap;
import java.util.List;
import java.util.Map;
import java.util.NoSuchElementException;
import java.util.concurrent.locks.StampedLock;
import java.util.function.LongUnaryOperator;
import java.util.stream.Collectors;

/** A branch of a bank: all balances under one stamped lock, the log of what was done under a lock of its own. */
// judged with: --public --infer
public class Branch {

    /** What may be done with an account. */
    public enum Deed {
        DEPOSIT(1), WITHDRAW(-1), FEE(-1);

        private final int sign;

        Deed(int sign) {
            this.sign = sign;
        }

        public long apply(long balance, long cents) { // accepted
            return switch (this) {
                case DEPOSIT, WITHDRAW -> balance + sign * cents;
                case FEE -> {
                    var fee = Math.min(cents, 500);
                    yield balance + sign * fee;
                }
            };
        }
    }

    /** One line of the log. */
    public record Entry(String account, Deed deed, long cents) implements Comparable<Entry> {
        @Override
        public int compareTo(Entry other) { // accepted
            return Comparator.comparing(Entry::account).thenComparing(Entry::deed).compare(this, other);
        }
    }

    private final StampedLock lock = new StampedLock();
    private final Map<String, Long> balances = new HashMap<>();
    private final Map<Deed, Integer> counts = new EnumMap<>(Deed.class);
    private Entry last;
    private long reserve;

    public void open(String account) { // accepted
        final var stamp = lock.writeLock();
        try {
            if (balances.putIfAbsent(account, 0L) != null) {
                throw new IllegalArgumentException(account + " is there");
            }
        } finally {
            lock.unlockWrite(stamp);
        }
    }

    public long balance(String account) { // accepted
        long stamp = lock.readLock();
        try {
            return require(account);
        } finally {
            lock.unlockRead(stamp);
        }
    }

    private long require(String account) {
        var cents = balances.get(account);
        if (cents == null) {
            throw new NoSuchElementException(account);
        }
        return cents;
    }

    public long apply(Deed deed, String account, long cents) { // accepted
        long stamp = lock.writeLock();
        try {
            long left = deed.apply(require(account), cents);
            if (left < 0) {
                return -1;
            }
            balances.put(account, left);
            note(deed, account, cents);
            return left;
        } finally {
            lock.unlockWrite(stamp);
        }
    }

    private void note(Deed deed, String account, long cents) {
        counts.merge(deed, 1, Integer::sum);
        last = new Entry(account, deed, cents);
    }

    public boolean transfer(String from, String to, long cents) { // refused: fault: two regions
        if (balance(from) < cents) {
            return false;
        }
        apply(Deed.WITHDRAW, from, cents);
        apply(Deed.DEPOSIT, to, cents);
        return true;
    }

    public boolean move(String from, String to, long cents) { // accepted
        long stamp = lock.writeLock();
        try {
            if (require(from) < cents || from.equals(to)) {
                return false;
            }
            balances.merge(from, -cents, Long::sum);
            balances.merge(to, cents, Long::sum);
            note(Deed.WITHDRAW, from, cents);
            note(Deed.DEPOSIT, to, cents);
            return true;
        } finally {
            lock.unlockWrite(stamp);
        }
    }

    public long total() { // accepted
        long stamp = lock.readLock();
        try {
            return balances.values().stream().mapToLong(Long::longValue).sum();
        } finally {
            lock.unlockRead(stamp);
        }
    }

    public void keep(long cents) { // accepted
        long stamp = lock.writeLock();
        try {
            reserve = reserve + cents;
        } finally {
            lock.unlockWrite(stamp);
        }
    }

    public long reserve() { // refused: alarm: what is looked at without the lock is looked at again where it may be wrong
        long stamp = lock.tryOptimisticRead();
        long seen = reserve;
        if (!lock.validate(stamp)) {
            stamp = lock.readLock();
            try {
                seen = reserve;
            } finally {
                lock.unlockRead(stamp);
            }
        }
        return seen;
    }

    public void interest(LongUnaryOperator rate) { // accepted
        long stamp = lock.writeLock();
        try {
            balances.replaceAll((account, cents) -> cents + rate.applyAsLong(cents));
        } finally {
            lock.unlockWrite(stamp);
        }
    }

    public List<String> richest(int most) { // accepted
        long stamp = lock.readLock();
        try {
            return balances.entrySet().stream().sorted(Map.Entry.<String, Long>comparingByValue().reversed())
                .limit(most).map(Map.Entry::getKey).collect(Collectors.toList());
        } finally {
            lock.unlockRead(stamp);
        }
    }

    public Entry last() { // accepted
        long stamp = lock.readLock();
        try {
            return last;
        } finally {
            lock.unlockRead(stamp);
        }
    }

    public int count(Deed deed) { // accepted
        long stamp = lock.readLock();
        try {
            return counts.getOrDefault(deed, 0);
        } finally {
            lock.unlockRead(stamp);
        }
    }

    public int countOfAll() { // refused: fault: one look after the other
        int all = 0;
        for (var deed : Deed.values()) {
            all += count(deed);
        }
        return all;
    }

    public Iterable<String> accounts() { // accepted
        long stamp = lock.readLock();
        try {
            return List.copyOf(balances.keySet());
        } finally {
            lock.unlockRead(stamp);
        }
    }
}
