// What was found in a map that only grows may as well be looked up behind the wait; what was changed in front of it may not.
// judged with: --infer
import java.util.concurrent.ConcurrentHashMap;
import java.util.concurrent.ConcurrentMap;

class WaitBehindFound {
    private static final class Purse {
        private long amount;
    }

    private final ConcurrentMap<String, Purse> purses = new ConcurrentHashMap<>();
    private boolean open;
    private long looks;
    private long taken;

    void create(String name) {
        purses.putIfAbsent(name, new Purse());
    }

    synchronized void open() {
        open = true;
        notifyAll();
    }

    synchronized long seen() {
        return looks + taken;
    }

    void put(String name, long amount) {
        Purse purse = purses.get(name);
        if (purse != null) {
            synchronized (purse) {
                purse.amount += amount;
                purse.notifyAll();
            }
        }
    }

    /* atomic */ void take(String name, long amount) throws InterruptedException { // accepted
        Purse purse = purses.get(name);
        if (purse == null) {
            throw new IllegalArgumentException(name);
        }
        synchronized (purse) {
            while (purse.amount < amount) {
                purse.wait();
            }
            purse.amount -= amount;
        }
    }

    /* atomic */ synchronized void takeOpen(String name) throws InterruptedException { // accepted
        Purse purse = purses.get(name);
        if (purse == null) {
            return;
        }
        while (!open) {
            wait();
        }
        taken++;
    }

    /* atomic */ synchronized void countFirst(String name) throws InterruptedException { // refused: a look is counted, and then it waits
        Purse purse = purses.get(name);
        if (purse == null) {
            return;
        }
        looks++;
        while (!open) {
            wait();
        }
        taken++;
    }

    /* atomic */ synchronized void waitWithin(String name) throws InterruptedException { // refused: it waits for the other lock, and holds its own
        Purse purse = purses.get(name);
        if (purse == null) {
            return;
        }
        looks++;
        synchronized (purse) {
            while (purse.amount == 0) {
                purse.wait();
            }
        }
    }

    /* atomic */ void countOutside(String name) throws InterruptedException { // refused: two regions
        Purse purse = purses.get(name);
        if (purse == null) {
            return;
        }
        synchronized (this) {
            looks++;
        }
        synchronized (purse) {
            while (purse.amount == 0) {
                purse.wait();
            }
            purse.amount--;
        }
    }
}
