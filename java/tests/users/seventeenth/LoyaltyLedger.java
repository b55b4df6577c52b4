// judged with: --public --infer
package com.example.seventeenth;

import java.util.HashMap;
import java.util.Map;
import java.util.Optional;
import java.util.Set;
import java.util.concurrent.locks.Lock;
import java.util.concurrent.locks.ReentrantReadWriteLock;
import java.util.function.Predicate;
import java.util.function.Supplier;
import java.util.stream.Collectors;

/** Points of the members of a loyalty programme. */
public class LoyaltyLedger extends LockedLedger {

    public enum Tier {
        BASIC, SILVER, GOLD;

        private static Tier of(long points) {
            return points >= 10_000 ? GOLD : points >= 1_000 ? SILVER : BASIC;
        }
    }

    private record Member(long points, Tier tier) {
        Member plus(long more) {
            return new Member(points + more, tier);
        }

        Member retiered() {
            return new Member(points, Tier.of(points));
        }
    }

    private final Map<String, Member> members = new HashMap<>();
    private volatile long issued;

    public boolean enroll(String name) { // accepted
        return writing(() -> members.putIfAbsent(name, new Member(0, Tier.BASIC)) == null);
    }

    /** Returns the new number of points. */
    public long earn(String name, long points) { // refused: fault: issued += on a volatile outside the lock: A and B both read 100, one of the two is lost; and points are visible before issued
        Member after = writing(() -> members.computeIfPresent(name, (n, m) -> m.plus(points)));
        if (after == null) {
            throw new IllegalArgumentException("unknown member " + name);
        }
        issued += points;
        return after.points();
    }

    public boolean redeem(String name, long points) { // accepted
        return writing(() -> {
            Member member = members.get(name);
            if (member == null || member.points() < points) {
                return false;
            }
            members.put(name, member.plus(-points));
            return true;
        });
    }

    public boolean gift(String from, String to, long points) { // refused: fault: three regions: after A's redeem and before A's merge B sees the points nowhere, or B drops the recipient and A's merge brings him back
        if (!isMember(to) || !redeem(from, points)) {
            return false;
        }
        writing(() -> members.merge(to, new Member(points, Tier.BASIC), (old, gift) -> old.plus(gift.points())));
        return true;
    }

    /** Brings the tier in line with the points; true if that changed it. */
    public boolean review(String name) { // refused: alarm: the unlocked decision is taken again from the current member under the write lock; an early false is right at the moment of the read
        Member seen = reading(() -> members.get(name));
        if (seen == null || seen.retiered().equals(seen)) {
            return false;
        }
        return writing(() -> {
            Member now = members.get(name);
            return now != null && !now.equals(members.computeIfPresent(name, (n, m) -> m.retiered()));
        });
    }

    public boolean isMember(String name) { // accepted
        return reading(() -> members.containsKey(name));
    }

    public Optional<Tier> tier(String name) { // accepted
        return reading(() -> Optional.ofNullable(members.get(name)).map(Member::tier));
    }

    public Map<Tier, Long> countByTier() { // accepted
        return reading(() -> members.values().stream()
                .collect(Collectors.groupingBy(Member::tier, Collectors.counting())));
    }

    public Set<String> names() { // refused: fault: the live keySet of the HashMap escapes: B enrolls while A iterates it (ConcurrentModificationException), and A can even remove members without the lock
        return reading(members::keySet);
    }

    public boolean dropIf(Predicate<? super String> filter) { // accepted
        return writing(() -> members.keySet().removeIf(filter));
    }

    public long issued() { // accepted
        return issued;
    }
}

abstract class LockedLedger {

    private final ReentrantReadWriteLock lock = new ReentrantReadWriteLock();

    protected final <T> T reading(Supplier<T> body) {
        return locked(lock.readLock(), body);
    }

    protected final <T> T writing(Supplier<T> body) {
        return locked(lock.writeLock(), body);
    }

    private static <T> T locked(Lock held, Supplier<T> body) {
        held.lock();
        try {
            return body.get();
        } finally {
            held.unlock();
        }
    }
}
