// judged with: --public --infer
package com.example.nineteenth;

import java.time.Instant;
import java.util.ArrayList;
import java.util.Collections;
import java.util.Comparator;
import java.util.HashMap;
import java.util.List;
import java.util.Map;
import java.util.NoSuchElementException;
import java.util.concurrent.CopyOnWriteArrayList;

/**
 * Points of the members of the loyalty programme.
 */
public class LoyaltyLedger {

    public enum Kind { EARN, REDEEM, MERGE }

    public record Entry(Kind kind, long points, Instant at) { }

    public record Standing(String member, long points) { }

    public interface TierListener {
        void tierChanged(String member, int tier);
    }

    private static final class Member {
        final String id;
        final List<Entry> entries = new ArrayList<>();
        long points;
        int tier;

        Member(String id) {
            this.id = id;
        }

        void post(Kind kind, long delta) {
            points += delta;
            entries.add(new Entry(kind, delta, Instant.now()));
        }
    }

    private final Map<String, Member> members = new HashMap<>();
    private final List<TierListener> listeners = new CopyOnWriteArrayList<>();
    private long outstanding;

    public void addTierListener(TierListener listener) { // accepted
        listeners.add(listener);
    }

    public synchronized boolean enroll(String id) { // accepted
        return members.putIfAbsent(id, new Member(id)) == null;
    }

    public synchronized void earn(String id, long points) { // accepted
        find(id).post(Kind.EARN, points);
        outstanding += points;
    }

    public synchronized boolean redeem(String id, long points) { // accepted
        Member m = find(id);
        if (m.points < points) {
            return false;
        }
        m.post(Kind.REDEEM, -points);
        outstanding -= points;
        return true;
    }

    public boolean gift(String from, String to, long points) { // refused: fault: A redeems from x, B's outstanding() or top() sees the points gone from x and not yet at y, then A earns to y (and y may be merged away between: points lost)
        if (!redeem(from, points)) {
            return false;
        }
        earn(to, points);
        return true;
    }

    /** Moves everything the first member has to the second and drops the first. */
    public synchronized void merge(String from, String into) { // accepted
        Member source = find(from);
        Member target = find(into);
        if (source == target) {
            return;
        }
        target.post(Kind.MERGE, source.points);
        members.remove(from);
    }

    public void reviewTier(String id) { // refused: fault: A works out tier 1, leaves the lock and calls listeners; B earns and reviews to tier 2; A then writes tier 1 over it (or find throws because of a merge)
        int tier;
        synchronized (this) {
            Member m = find(id);
            tier = tierFor(m.points);
            if (tier == m.tier) {
                return;
            }
        }
        for (TierListener l : listeners) {
            l.tierChanged(id, tier);
        }
        synchronized (this) {
            find(id).tier = tier;
        }
    }

    public synchronized int tier(String id) { // accepted
        return find(id).tier;
    }

    public synchronized long balance(String id) { // accepted
        return find(id).points;
    }

    public synchronized List<Entry> statement(String id) { // refused: fault: hands out a live view of the member's ArrayList: A iterates over the result without the lock while B's earn adds to it, ConcurrentModificationException or a changing statement
        return Collections.unmodifiableList(find(id).entries);
    }

    public synchronized List<Standing> top(int n) { // accepted
        return members.values().stream()
                .sorted(Comparator.comparingLong((Member m) -> m.points).reversed())
                .limit(n)
                .map(m -> new Standing(m.id, m.points))
                .toList();
    }

    public synchronized long outstanding() { // accepted
        return outstanding;
    }

    private Member find(String id) {
        Member m = members.get(id);
        if (m == null) {
            throw new NoSuchElementException(id);
        }
        return m;
    }

    private static int tierFor(long points) {
        return points >= 50_000 ? 2 : points >= 10_000 ? 1 : 0;
    }
}
