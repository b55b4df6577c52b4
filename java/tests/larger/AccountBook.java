package accounts;

import atomic.Atomic;
import net.jcip.annotations.GuardedBy;

/** Two accounts of a book and transfers between them. */
public class AccountBook {
    private final Account checking = new Account();
    private final Account savings = new Account();
    private final Object journal = new Object();
    @GuardedBy("journal") private int entries;
    @GuardedBy("journal") private String last = "";

    static class Account {
        @GuardedBy("this") private int balance;
        @GuardedBy("this") private int changes;

        @Atomic
        synchronized int balance() { // harmless without modifier: each call among these files holds that lock
            return balance;
        }

        @Atomic
        synchronized void add(int amount) {
            balance += amount;
            changes++;
        }

        @Atomic
        synchronized int changes() { // harmless without modifier: each call among these files holds that lock
            return changes;
        }
    }

    @Atomic
    public void deposit(int amount) {
        checking.add(amount);
    }

    @Atomic
    public boolean save(int amount) {
        synchronized (checking) {
            if (checking.balance() < amount) {
                return false;
            }
            synchronized (savings) {
                checking.add(-amount);
                savings.add(amount);
                note("save");
                return true;
            }
        }
    }

    @Atomic
    public int total() {
        synchronized (checking) { // harmless without block: the other account is read in one step while this one is held
            synchronized (savings) { // harmless without block: the other account is read in one step while this one is held
                return checking.balance() + savings.balance();
            }
        }
    }

    @Atomic
    public int changes() {
        synchronized (checking) { // harmless without block: the other account is read in one step while this one is held
            synchronized (savings) { // harmless without block: the other account is read in one step while this one is held
                int changes = checking.changes();
                changes += savings.changes();
                return changes;
            }
        }
    }

    @Atomic
    public String describe() {
        synchronized (journal) {
            return entries + " entries, the last one: " + last;
        }
    }

    private void note(String kind) {
        synchronized (journal) {
            entries++;
            last = kind;
        }
    }
}
