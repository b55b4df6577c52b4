// judged with: --public --infer
package com.example.tenth;

import java.util.Hashtable;
import java.util.Iterator;
import java.util.Map;

/** Balances of one branch; vaults are numbered by the factory. */
public class TellerVault implements Cloneable {
    private static int nextNumber = 1000;
    private static int opened;

    private final int number;
    private final String branch;
    private Hashtable<String, Long> balances = new Hashtable<String, Long>();
    private final Object feeLock = new Object();
    private long fees;

    private TellerVault(String branch, int number) {
        this.branch = branch;
        this.number = number;
    }

    public static synchronized TellerVault open(String branch) { // accepted
        opened++;
        return new TellerVault(branch, nextNumber++);
    }

    public static int openedCount() { return opened; } // refused: fault: one look at a field without its lock

    public int getNumber() { return number; } // accepted

    public synchronized void deposit(String who, long amount) { // refused: alarm: the expert sees no interruption
        Long old = balances.get(who);
        balances.put(who, old == null ? amount : old + amount);
    }

    public synchronized boolean withdraw(String who, long amount) { // refused: alarm: the expert sees no interruption
        Long old = balances.get(who);
        if (old == null || old < amount) {
            return false;
        }
        balances.put(who, old - amount);
        return true;
    }

    public boolean send(String who, TellerVault other, long amount) { // refused: fault: between withdraw and other.deposit another thread reads this.balanceOf(who) without the money and then other.balanceOf(who) without the money
        if (!withdraw(who, amount)) {
            return false;
        }
        other.deposit(who, amount);
        return true;
    }

    public synchronized long balanceOf(String who) { // refused: alarm: the expert sees no interruption
        Long b = balances.get(who);
        return b == null ? 0 : b;
    }

    public synchronized long total() { // refused: alarm: the expert sees no interruption
        long sum = 0;
        for (Iterator<Long> it = balances.values().iterator(); it.hasNext();) {
            sum += it.next();
        }
        return sum;
    }

    public String names() { // refused: fault: walks the Hashtable without lock: deposit of a new customer in another thread gives ConcurrentModificationException
        String s = "";
        for (Map.Entry<String, Long> e : balances.entrySet()) {
            s = s + e.getKey() + ";";
        }
        return s;
    }

    public void addFee(long amount) { // accepted
        synchronized (feeLock) {
            fees += amount;
        }
    }

    public long fees() { // accepted
        synchronized (feeLock) {
            return fees;
        }
    }

    public void sweepFees(String who) { // refused: fault: addFee(5) after the read of fees is wiped by fees = 0: fees() is 0 and the 5 are on no account
        long f = fees();
        deposit(who, f);
        synchronized (feeLock) {
            fees = 0;
        }
    }

    public synchronized boolean equals(Object o) { // refused: fault: locks only this: this {a=1,b=2}, other {a=1,b=1}; equals has compared a, another thread runs other.deposit(a,1) and then other.deposit(b,1), equals compares b: true, though the two never were equal (if it visits b first: the same with a and b exchanged)
        return o instanceof TellerVault && balances.equals(((TellerVault) o).balances);
    }

    public int hashCode() { return number; } // accepted

    public synchronized String toString() { return branch + "#" + number + balances; } // refused: alarm: the expert sees no interruption

    @SuppressWarnings("unchecked")
    public TellerVault copy() { // refused: fault: no lock: fees are copied first; another thread runs addFee(5) and then deposit(a,10), then balances are copied: the copy has the 10 but not the earlier 5
        try {
            TellerVault c = (TellerVault) clone();
            c.balances = (Hashtable<String, Long>) balances.clone();
            return c;
        } catch (CloneNotSupportedException e) {
            throw new AssertionError(e);
        }
    }
}
