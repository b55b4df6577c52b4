// judged with: --public --infer
package com.example.thirteenth;

import java.util.*;
import java.util.concurrent.atomic.AtomicInteger;
import java.util.concurrent.locks.ReentrantLock;

/** Base of everything that keeps gold. */
abstract class Treasury {

    private static final AtomicInteger IDS = new AtomicInteger();

    protected final int id = IDS.incrementAndGet();
    protected final ReentrantLock lock = new ReentrantLock();
    protected long gold;

    protected abstract void changed(long amount);

    public long balance() { // accepted
        lock.lock();
        try {
            return gold;
        } finally {
            lock.unlock();
        }
    }

    public void deposit(long amount) { // accepted
        lock.lock();
        try {
            gold += amount;
            changed(amount);
        } finally {
            lock.unlock();
        }
    }

    public boolean spend(long amount) { // accepted
        lock.lock();
        try {
            if (gold < amount) return false;
            gold -= amount;
            changed(-amount);
            return true;
        } finally {
            lock.unlock();
        }
    }
}

/** The chest of a players' guild. */
public class GuildTreasury extends Treasury {

    public record Receipt(long income, long tax, double rate) { }

    private final Map<String, Long> donations = new HashMap<>();
    private volatile double taxRate = 0.1;
    private String motto = "";
    private long turnover;

    @Override
    protected void changed(long amount) { turnover += Math.abs(amount); }

    public void donate(String member, long amount) { // refused: fault: deposit and the note of the donor are two regions: T2's summary() in between shows the gold but not the donation
        deposit(amount);
        lock.lock();
        try {
            donations.merge(member, amount, Long::sum);
        } finally {
            lock.unlock();
        }
    }

    public Optional<String> topDonor() { // refused: fault: iterates the guarded HashMap without the lock: T2's donate() adds a donor meanwhile, T1 gets ConcurrentModificationException or a wrong maximum
        return donations.entrySet().stream().max(Map.Entry.comparingByValue()).map(Map.Entry::getKey);
    }

    public void setTaxRate(double rate) { this.taxRate = rate; } // accepted

    /** Takes the guild's share of what a member has earned. */
    public Receipt collect(long income) { // refused: fault: reads the volatile taxRate twice, around a region: T1 computes the tax at 0.1, T2 sets 0.2, T1's receipt shows that tax with rate 0.2
        long tax = Math.round(income * taxRate);
        deposit(tax);
        return new Receipt(income, tax, taxRate);
    }

    public void absorb(GuildTreasury other) { // accepted
        if (other == this) return;
        GuildTreasury first = this.id < other.id ? this : other;
        GuildTreasury second = first == this ? other : this;
        first.lock.lock();
        second.lock.lock();
        try {
            long all = other.gold;
            if (other.spend(all)) deposit(all);
            other.donations.forEach((member, sum) -> donations.merge(member, sum, Long::sum));
            other.donations.clear();
        } finally {
            second.lock.unlock();
            first.lock.unlock();
        }
    }

    public String summary() { // accepted
        lock.lock();
        try {
            return motto + ": " + balance() + " gold, turnover " + turnover + ", given " + donations;
        } finally {
            lock.unlock();
        }
    }

    public void setMotto(String motto) { // accepted
        lock.lock();
        try {
            this.motto = Objects.requireNonNull(motto);
        } finally {
            lock.unlock();
        }
    }

    public String motto() { return motto; } // refused: fault: one look at a field without its lock
}
