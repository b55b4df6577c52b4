// judged with: --public --infer
package com.example.eighth;

import java.util.List;
import java.util.concurrent.CopyOnWriteArrayList;
import java.util.concurrent.locks.StampedLock;
import java.util.function.Consumer;
import java.util.stream.Stream;

public class AuditTrail {

    record Info(int entries, int length) { }

    private final StampedLock lock = new StampedLock();
    private final StringBuilder text = new StringBuilder();
    private final List<Consumer<String>> listeners = new CopyOnWriteArrayList<>();
    private int entries;
    private String lastUser = "";

    public void append(String user, String message) { // accepted
        long stamp = lock.writeLock();
        try {
            write(user, message);
        } finally {
            lock.unlockWrite(stamp);
        }
    }

    public boolean appendIfEmpty(String user, String message) { // refused: fault: when the upgrade fails the read lock is given up and nothing is tested again: two threads hold the read lock and see 0 entries, both upgrades fail, both write one after the other and return true: entries() is 2
        long stamp = lock.readLock();
        try {
            if (entries > 0) {
                return false;
            }
            long upgraded = lock.tryConvertToWriteLock(stamp);
            if (upgraded == 0L) {
                lock.unlockRead(stamp);
                upgraded = lock.writeLock();
            }
            stamp = upgraded;
            write(user, message);
            return true;
        } finally {
            lock.unlock(stamp);
        }
    }

    public boolean appendIfUserChanged(String user, String message) { // refused: alarm: behind a failed upgrade it asks again under the write lock
        long stamp = lock.readLock();
        try {
            while (!user.equals(lastUser)) {
                long upgraded = lock.tryConvertToWriteLock(stamp);
                if (upgraded != 0L) {
                    stamp = upgraded;
                    write(user, message);
                    return true;
                }
                lock.unlockRead(stamp);
                stamp = lock.writeLock();
            }
            return false;
        } finally {
            lock.unlock(stamp);
        }
    }

    public int entries() { // refused: alarm: what was looked at without the lock is looked at again under it
        long stamp = lock.tryOptimisticRead();
        int seen = entries;
        if (!lock.validate(stamp)) {
            stamp = lock.readLock();
            try {
                seen = entries;
            } finally {
                lock.unlockRead(stamp);
            }
        }
        return seen;
    }

    public Info info() { // accepted
        long stamp = lock.readLock();
        try {
            return new Info(entries, text.length());
        } finally {
            lock.unlockRead(stamp);
        }
    }

    public Info quickInfo() { // refused: fault: two regions: entries 0 is read, another thread's append runs, the text has a line: an Info(0, n) that never was
        return new Info(entries(), text().length());
    }

    public String tail(int chars) { // refused: fault: the optimistic section works on the live StringBuilder: length 10 is read, another thread's drain() empties it, substring(5) throws StringIndexOutOfBoundsException before validate is reached
        long stamp = lock.tryOptimisticRead();
        String end = text.substring(Math.max(0, text.length() - chars));
        return lock.validate(stamp) ? end : lastOf(text(), chars);
    }

    public String text() { // accepted
        long stamp = lock.readLock();
        try {
            return text.toString();
        } finally {
            lock.unlockRead(stamp);
        }
    }

    public Stream<String> lines() { // accepted
        return text().lines();
    }

    public String lastUser() { // refused: fault: one look at a field without its lock
        return lastUser;
    }

    public String drain() { // accepted
        long stamp = lock.writeLock();
        try {
            String all = text.toString();
            text.setLength(0);
            entries = 0;
            return all;
        } finally {
            lock.unlockWrite(stamp);
        }
    }

    public void rotate(Consumer<String> archive) { // refused: fault: copy and drain are separate regions: another thread's append in between is neither archived nor kept
        archive.accept(text());
        drain();
    }

    public void importFrom(AuditTrail other) { // refused: fault: two reads of the other trail: its text is read with 1 line, another thread's other.append runs, its entries are read as 2: info() here then says 2 entries with one line of text
        String copied = other.text();
        int count = other.entries();
        long stamp = lock.writeLock();
        try {
            text.append(copied);
            entries += count;
        } finally {
            lock.unlockWrite(stamp);
        }
    }

    public void addListener(Consumer<String> listener) { // accepted
        listeners.add(listener);
    }

    public void announce(String user, String message) { // refused: fault: append and notification are separate: two threads announce a and b, text() is a b, but a listener gets b before a
        append(user, message);
        listeners.forEach(listener -> listener.accept(message));
    }

    private void write(String user, String message) {
        text.append(user).append(": ").append(message).append('\n');
        entries++;
        lastUser = user;
    }

    private static String lastOf(String all, int chars) {
        return all.substring(Math.max(0, all.length() - chars));
    }
}
