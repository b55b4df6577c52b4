// judged with: --public --infer
package com.example.eleventh;

import java.util.ArrayList;
import java.util.Collections;
import java.util.HashMap;
import java.util.List;
import java.util.Map;
import java.util.NoSuchElementException;

/** Ledger of loyalty points. Members are never removed once enrolled. */
public class LoyaltyLedger {

    public enum Kind { EARN, REDEEM, TRANSFER }

    public record Entry(Kind kind, long points, String memo) { }

    private static final class Account {
        final int order;
        final List<Entry> entries = new ArrayList<>();
        long balance;

        Account(int order) {
            this.order = order;
        }

        void post(Kind kind, long points, String memo) {
            balance += points;
            entries.add(new Entry(kind, points, memo));
        }
    }

    private final Map<String, Account> accounts = new HashMap<>();

    /** Enrols a member; false if already enrolled. */
    public boolean enrol(String member) { // accepted
        synchronized (accounts) {
            if (accounts.containsKey(member)) return false;
            accounts.put(member, new Account(accounts.size()));
            return true;
        }
    }

    public boolean isEnrolled(String member) { // accepted
        synchronized (accounts) {
            return accounts.containsKey(member);
        }
    }

    public void ensureEnrolled(String member) { // refused: alarm: the expert sees no interruption
        if (!isEnrolled(member)) enrol(member);
    }

    public long earn(String member, long points, String memo) { // refused: alarm: the expert sees no interruption
        Account account = require(member);
        synchronized (account) {
            account.post(Kind.EARN, points, memo);
            return account.balance;
        }
    }

    public long balanceOf(String member) { // refused: alarm: the expert sees no interruption
        Account account = require(member);
        synchronized (account) {
            return account.balance;
        }
    }

    /** Takes points for a reward; false if the member has too few. */
    public boolean redeem(String member, long points, String reward) { // refused: fault: check-then-act: two threads both see balance 100 and both post -100, balance becomes -100 and both get true
        if (balanceOf(member) < points) return false;
        Account account = require(member);
        synchronized (account) {
            account.post(Kind.REDEEM, -points, reward);
        }
        return true;
    }

    public boolean transfer(String from, String to, long points) { // refused: alarm: the expert sees no interruption
        Account source = require(from);
        Account target = require(to);
        Account first = source.order < target.order ? source : target;
        Account second = first == source ? target : source;
        synchronized (first) {
            synchronized (second) {
                if (source.balance < points) return false;
                source.post(Kind.TRANSFER, -points, "to " + to);
                target.post(Kind.TRANSFER, points, "from " + from);
                return true;
            }
        }
    }

    public List<Entry> statement(String member) { // refused: fault: returns an unmodifiable VIEW of the guarded ArrayList: the caller iterates it without the lock while T2 calls earn(), and gets ConcurrentModificationException or sees the list grow
        Account account = require(member);
        synchronized (account) {
            return Collections.unmodifiableList(account.entries);
        }
    }

    /** Points outstanding over all members. */
    public long outstanding() { // refused: fault: one region per account: T1 adds a's 100, T2 transfers 100 from a to b, T1 adds b's 100: 200 though the sum was 100 all the time
        List<Account> all;
        synchronized (accounts) {
            all = new ArrayList<>(accounts.values());
        }
        long sum = 0;
        for (Account account : all) {
            synchronized (account) {
                sum += account.balance;
            }
        }
        return sum;
    }

    private Account require(String member) {
        synchronized (accounts) {
            Account account = accounts.get(member);
            if (account == null) throw new NoSuchElementException(member);
            return account;
        }
    }
}
