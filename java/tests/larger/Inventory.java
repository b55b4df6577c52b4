package shop;

import atomic.Atomic;
import java.util.ArrayList;
import java.util.HashMap;
import java.util.List;
import java.util.Map;
import javax.annotation.concurrent.GuardedBy;
import org.checkerframework.checker.lock.qual.Holding;

/** What a shop has of each thing, under the lock of the object, with helpers that want it held. */
public class Inventory {
    @GuardedBy("this") private final Map<String, Integer> amounts = new HashMap<>();
    @GuardedBy("this") private final List<String> changes = new ArrayList<>();
    @GuardedBy("this") private int reserved;
    private final int limit;

    public Inventory(int limit) {
        this.limit = limit;
    }

    @Atomic
    public synchronized boolean add(String thing, int amount) {
        if (amount <= 0 || !fits(amount)) {
            return false;
        }
        change(thing, amount);
        return true;
    }

    @Atomic
    public synchronized boolean take(String thing, int amount) {
        Integer there = amounts.get(thing);
        if (there == null || there < amount) {
            return false;
        }
        change(thing, -amount);
        return true;
    }

    @Atomic
    public boolean reserve(int amount) {
        synchronized (this) {
            if (!fits(amount)) {
                return false;
            }
            reserved += amount;
            return true;
        }
    }

    @Atomic
    public synchronized void move(String from, String to, int amount) {
        if (take(from, amount)) {
            change(to, amount);
        }
    }

    @Atomic
    public synchronized List<String> changes() {
        return new ArrayList<>(changes);
    }

    @Atomic
    public synchronized int count() {
        int sum = 0;
        for (int amount : amounts.values()) {
            sum += amount;
        }
        return sum;
    }

    @Holding("this") // harmless without holding: what every caller of a private method holds is found without it
    private void change(String thing, int amount) {
        amounts.merge(thing, amount, Integer::sum);
        changes.add(thing + " " + amount);
    }

    @Holding("this") // harmless without holding: what every caller of a private method holds is found without it
    private boolean fits(int amount) {
        return count() + reserved + amount <= limit;
    }
}
