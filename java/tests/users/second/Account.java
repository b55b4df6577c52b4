// judged with: --public --infer
package com.example.second;

import java.lang.annotation.Retention;
import java.lang.annotation.RetentionPolicy;
import java.math.BigDecimal;
import java.util.ArrayList;
import java.util.Collection;
import java.util.List;
import java.util.Optional;
import java.util.concurrent.atomic.AtomicLong;
import java.util.function.Predicate;

@Retention(RetentionPolicy.CLASS)
@interface GuardedBy {
    String value();
}

/** A bank account; each account is its own monitor. */
public class Account implements Comparable<Account> {
    public enum Kind { CREDIT, DEBIT, FEE }

    public record Entry(Kind kind, BigDecimal amount, BigDecimal after) { }

    public interface Watcher {
        void changed(Account a, BigDecimal balance);
    }

    private static final AtomicLong NUMBERS = new AtomicLong(1000);

    private final long number = NUMBERS.getAndIncrement();
    private final String owner;
    private volatile Watcher watcher = (a, b) -> { };
    @GuardedBy("this") private BigDecimal balance = BigDecimal.ZERO;
    @GuardedBy("this") private final List<Entry> entries = new ArrayList<>();

    public Account(String owner) { this.owner = owner; }

    public synchronized BigDecimal deposit(BigDecimal amount) { // accepted
        if (amount.signum() < 0) throw new IllegalArgumentException("negative");
        return book(Kind.CREDIT, amount);
    }

    public synchronized boolean withdraw(BigDecimal amount) { // accepted
        if (balance.compareTo(amount) < 0) return false;
        book(Kind.DEBIT, amount.negate());
        return true;
    }

    public boolean transferTo(Account to, BigDecimal amount) { // accepted
        Account first = number < to.number ? this : to;
        Account second = first == this ? to : this;
        synchronized (first) {
            synchronized (second) {
                if (!withdraw(amount)) return false;
                to.deposit(amount);
                return true;
            }
        }
    }

    /** As transferTo, without care for the order of the locks. */
    public synchronized void pay(Account payee, BigDecimal amount) { // accepted
        if (!withdraw(amount)) throw new IllegalStateException("insufficient funds: " + balance);
        payee.deposit(amount);
    }

    public void collectFrom(Account payer, BigDecimal amount) { // refused: fault: two critical sections on two accounts
        if (payer.withdraw(amount)) {
            deposit(amount);
        }
    }

    public void chargeIfBelow(BigDecimal minimum, BigDecimal fee) { // refused: fault: check-then-act
        if (balance().compareTo(minimum) < 0) {
            synchronized (this) {
                book(Kind.FEE, fee.negate());
            }
        }
    }

    /** Adds interest, shows the intermediate balance to the watcher, then takes the tax. */
    public void yearEnd(BigDecimal rate, BigDecimal tax) { // refused: fault: two critical sections with a listener in the middle
        BigDecimal b;
        synchronized (this) {
            b = book(Kind.CREDIT, balance.multiply(rate));
        }
        watcher.changed(this, b);
        synchronized (this) {
            book(Kind.FEE, tax.negate());
        }
    }

    public synchronized BigDecimal balance() { return balance; } // accepted
    public boolean isOverdrawn() { return balance().signum() < 0; } // accepted
    public long number() { return number; } // accepted
    public void watch(Watcher w) { watcher = w; } // accepted

    public synchronized List<Entry> entries() { return List.copyOf(entries); } // accepted

    public Optional<Entry> firstMatch(Predicate<? super Entry> p) { return entries().stream().filter(p).findFirst(); } // refused: alarm: one critical section

    public static BigDecimal total(Collection<Account> accounts) { // refused: fault: each balance is read in its own critical section
        return accounts.stream().map(Account::balance).reduce(BigDecimal.ZERO, BigDecimal::add);
    }

    @Override public int compareTo(Account o) { return balance().compareTo(o.balance()); } // refused: fault: two critical sections on two objects
    @Override public boolean equals(Object o) { return o instanceof Account a && a.number == number; } // accepted
    @Override public int hashCode() { return Long.hashCode(number); } // accepted
    @Override public String toString() { return "#" + number + " " + owner + ": " + balance(); } // accepted

    @GuardedBy("this")
    private BigDecimal book(Kind kind, BigDecimal delta) {
        balance = balance.add(delta);
        entries.add(new Entry(kind, delta.abs(), balance));
        return balance;
    }
}
