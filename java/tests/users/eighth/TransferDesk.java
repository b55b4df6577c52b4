// judged with: --public --infer
package com.example.eighth;

import java.util.ArrayList;
import java.util.Comparator;
import java.util.List;
import java.util.Map;
import java.util.Objects;
import java.util.Optional;
import java.util.OptionalLong;
import java.util.concurrent.ConcurrentHashMap;
import java.util.concurrent.ConcurrentMap;

/** Balances as immutable values in a concurrent map; no locks of its own. */
public final class TransferDesk {

    public enum Action { DEPOSIT, WITHDRAW, FEE }

    private final ConcurrentMap<String, Long> balances = new ConcurrentHashMap<>();
    private final long fee;

    public TransferDesk(long fee) {
        this.fee = fee;
    }

    public boolean open(String id, long initial) { // accepted
        return balances.putIfAbsent(id, initial) == null;
    }

    public boolean reopen(String id, long initial) { // refused: fault: check-then-act: two threads find the id absent and both put, both return true, the first one's balance is lost
        if (balances.containsKey(id)) {
            return false;
        }
        balances.put(id, initial);
        return true;
    }

    public boolean deposit(String id, long amount) { // accepted
        return balances.computeIfPresent(id, (k, v) -> v + amount) != null;
    }

    public boolean withdraw(String id, long amount) { // accepted
        for (;;) {
            Long old = balances.get(id);
            if (old == null || old < amount) {
                return false;
            }
            if (balances.replace(id, old, old - amount)) {
                return true;
            }
        }
    }

    public boolean withdrawFast(String id, long amount) { // refused: fault: get and put: 10 is read, another thread's deposit(id,5) returns true, 10-3 is put: 7 instead of 12 (or close(id) in between and the account is back)
        Long old = balances.get(id);
        if (old == null || old < amount) {
            return false;
        }
        balances.put(id, old - amount);
        return true;
    }

    public boolean execute(Action action, String id, long amount) { // accepted
        Objects.requireNonNull(id);
        return switch (action) {
            case DEPOSIT -> deposit(id, amount);
            case WITHDRAW -> withdraw(id, amount);
            case FEE -> withdraw(id, fee);
        };
    }

    public boolean withdrawWithFee(String id, long amount) { // refused: fault: two withdrawals: between them another thread's balance(id) shows the amount gone and the fee not yet
        return withdraw(id, amount) && withdraw(id, fee);
    }

    public boolean transfer(String from, String to, long amount) { // refused: fault: withdraw and deposit are separate: in between another thread reads balance(from) reduced and balance(to) still old
        if (!withdraw(from, amount)) {
            return false;
        }
        if (deposit(to, amount)) {
            return true;
        }
        deposit(from, amount);
        return false;
    }

    public OptionalLong balance(String id) { // accepted
        Long v = balances.get(id);
        return v == null ? OptionalLong.empty() : OptionalLong.of(v);
    }

    public boolean covers(String id, long amount) { // refused: fault: containsKey is true, another thread's close(id) removes it, get(id) is null: NullPointerException
        return balances.containsKey(id) && balances.get(id) >= amount;
    }

    public long total() { // refused: fault: weakly consistent iteration: a=10 is read, another thread does deposit(a,1) and then deposit(b,2), b=12 is read: 22, while the totals were 20, 21, 23
        return balances.values().stream().mapToLong(Long::longValue).sum();
    }

    public boolean closeEmpty(String id) { // accepted
        return balances.remove(id, 0L);
    }

    public OptionalLong close(String id) { // accepted
        Long last = balances.remove(id);
        return last == null ? OptionalLong.empty() : OptionalLong.of(last);
    }

    public OptionalLong closeCarefully(String id) { // refused: fault: 10 is read, another thread's deposit(id,5) returns true, then the account is removed and 10 returned: 5 lost
        OptionalLong last = balance(id);
        if (last.isPresent()) {
            balances.remove(id);
        }
        return last;
    }

    public long merge(String from, String to) { // refused: fault: remove and merge are separate: in between another thread sees balance(from) empty and balance(to) still old
        Long moved = balances.remove(from);
        return balances.merge(to, moved == null ? 0L : moved, Long::sum);
    }

    public void addInterest(int percent) { // refused: fault: replaceAll works key by key: another thread reads balance(a) with interest and then balance(b) without
        balances.replaceAll((id, v) -> v + v * percent / 100);
    }

    public Optional<String> richest() { // refused: fault: weakly consistent copy of the entries: a=5 and b=5, a=5 is copied, another thread does deposit(a,2) and then deposit(b,1), b=6 is copied: b, which never was the richest alone
        List<Map.Entry<String, Long>> all = new ArrayList<>(balances.entrySet());
        return all.stream().max(Comparator.comparingLong(Map.Entry::getValue)).map(Map.Entry::getKey);
    }
}
