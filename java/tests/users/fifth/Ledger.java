// judged with: --public --infer
package com.example.fifth;

import java.util.Collection;
import java.util.HashMap;
import java.util.List;
import java.util.Map;
import java.util.Optional;
import java.util.function.Predicate;

/**
 * Balances in an immutable map. Writers replace the map while they hold the monitor,
 * readers take the current map without any lock.
 */
public final class Ledger {

    public record Posting(String from, String to, long cents) {
        public Posting {
            if (cents <= 0) {
                throw new IllegalArgumentException("cents: " + cents);
            }
        }
    }

    private volatile Map<String, Long> balances = Map.of();

    public synchronized boolean open(String account) { // accepted
        if (balances.containsKey(account)) {
            return false;
        }
        Map<String, Long> next = new HashMap<>(balances);
        next.put(account, 0L);
        balances = Map.copyOf(next);
        return true;
    }

    public void deposit(String account, long cents) { // refused: fault: copies outside the lock and only publishes under it: lost update
        Map<String, Long> next = new HashMap<>(balances);
        next.merge(account, cents, Long::sum);
        synchronized (this) {
            balances = Map.copyOf(next);
        }
    }

    public synchronized boolean post(Posting p) { // accepted
        Map<String, Long> next = new HashMap<>(balances);
        if (!apply(p, next)) {
            return false;
        }
        balances = Map.copyOf(next);
        return true;
    }

    /** Posts each one that can be posted, and tells how many they were. */
    public synchronized int postEach(Collection<Posting> postings) { // refused: fault: although synchronized: publishes once per posting and the readers take no lock
        int posted = 0;
        for (Posting p : postings) {
            if (post(p)) {
                posted++;
            }
        }
        return posted;
    }

    /** Posts either all or none. */
    public synchronized boolean postAll(Collection<Posting> postings) { // accepted
        Map<String, Long> next = new HashMap<>(balances);
        for (Posting p : postings) {
            if (!apply(p, next)) {
                return false;
            }
        }
        balances = Map.copyOf(next);
        return true;
    }

    public void accrue(double rate) { // accepted
        synchronized (this) {
            Map<String, Long> next = new HashMap<>(balances);
            next.replaceAll((account, cents) -> cents + Math.round(cents * rate));
            balances = Map.copyOf(next);
        }
    }

    public long balance(String account) { // accepted
        return balances.getOrDefault(account, 0L);
    }

    public long total() { // accepted
        return balances.values().stream().mapToLong(Long::longValue).sum();
    }

    /** @return the part of all the money that lies on this account */
    public double share(String account) { // refused: fault: two volatile reads (balance, total)
        return (double) balance(account) / total();
    }

    public Optional<String> richest() { // refused: alarm: a single volatile read, then local work
        return balances.entrySet().stream()
                .max(Map.Entry.comparingByValue())
                .map(Map.Entry::getKey);
    }

    public List<String> accounts(Predicate<? super Long> condition) { // refused: alarm: a single volatile read into a local, all the rest on that immutable map
        Map<String, Long> now = balances;
        return now.keySet().stream().filter(a -> condition.test(now.get(a))).sorted().toList();
    }

    public Map<String, Long> view() { // accepted
        return balances;
    }

    private static boolean apply(Posting p, Map<String, Long> map) {
        Long have = map.get(p.from());
        if (have == null || have < p.cents() || !map.containsKey(p.to())) {
            return false;
        }
        map.put(p.from(), have - p.cents());
        map.merge(p.to(), p.cents(), Long::sum);
        return true;
    }
}
