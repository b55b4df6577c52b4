// judged with: --public --infer
package com.example.fifteenth;

import java.util.ArrayList;
import java.util.Comparator;
import java.util.EnumMap;
import java.util.HashMap;
import java.util.List;
import java.util.Map;
import java.util.NavigableMap;
import java.util.TreeMap;
import java.util.concurrent.locks.Lock;
import java.util.concurrent.locks.ReentrantReadWriteLock;
import java.util.function.Supplier;
import java.util.stream.Collectors;

/**
 * Loyalty points of the members of a shop's bonus programme.
 */
public class LoyaltyBank {

    public enum Tier { BASIC, SILVER, GOLD }

    public record Statement(String member, int points, Tier tier) { }

    private static final NavigableMap<Integer, Tier> TIERS =
            new TreeMap<>(Map.of(0, Tier.BASIC, 1_000, Tier.SILVER, 10_000, Tier.GOLD));

    private static class Member {
        private int points;
        private int earned;

        private Tier tier() {
            return TIERS.floorEntry(earned).getValue();
        }
    }

    private final Map<String, Member> members = new HashMap<>();
    private final Map<Tier, Integer> bonusPercent = new EnumMap<>(Tier.class);
    private final Lock read;
    private final Lock write;
    private int redeemed;

    public LoyaltyBank() {
        var rw = new ReentrantReadWriteLock(true);
        read = rw.readLock();
        write = rw.writeLock();
        for (Tier t : Tier.values()) {
            bonusPercent.put(t, 5 * t.ordinal());
        }
    }

    public void enroll(String member) { // accepted
        locked(write, () -> members.putIfAbsent(member, new Member()));
    }

    /** Credits points including the bonus of the member's tier. */
    public int earn(String member, int points) { // refused: alarm: one write-locked region
        return locked(write, () -> {
            Member m = require(member);
            int credited = points + points * bonusPercent.get(m.tier()) / 100;
            m.points += credited;
            m.earned += credited;
            return m.points;
        });
    }

    public boolean redeem(String member, int points) { // refused: alarm: one write-locked region
        return locked(write, () -> {
            Member m = require(member);
            if (m.points < points) {
                return false;
            }
            m.points -= points;
            redeemed += points;
            return true;
        });
    }

    public boolean donate(String from, String to, int points) { // refused: fault: taking and giving are two regions: outstanding() in between misses the points and redeemedPoints() counts them as redeemed; with an unknown receiver they are lost
        boolean taken = redeem(from, points);
        if (taken) {
            locked(write, () -> {
                redeemed -= points;
                return require(to).points += points;
            });
        }
        return taken;
    }

    public Statement statement(String member) { // refused: alarm: one read-locked region, immutable result
        return locked(read, () -> {
            Member m = require(member);
            return new Statement(member, m.points, m.tier());
        });
    }

    public List<Statement> topMembers(int n) { // refused: fault: names in one region and each statement in another: redeem()/earn() in between gives a ranking that existed at no moment
        List<String> names = locked(read, () -> new ArrayList<>(members.keySet()));
        return names.stream()
                .map(this::statement)
                .sorted(Comparator.comparingInt(Statement::points).reversed())
                .limit(n)
                .collect(Collectors.toList());
    }

    public int outstanding() { // refused: alarm: one read-locked region, the stream is consumed in it
        return locked(read, () -> members.values().stream().mapToInt(m -> m.points).sum());
    }

    public void setBonus(Tier tier, int percent) { // accepted
        locked(write, () -> bonusPercent.put(tier, percent));
    }

    public int bonusOf(Tier tier) { // refused: fault: one look at a field without its lock
        return bonusPercent.get(tier);
    }

    public int redeemedPoints() { // accepted
        return locked(read, () -> redeemed);
    }

    private Member require(String member) {
        Member m = members.get(member);
        if (m == null) {
            throw new IllegalArgumentException("not a member: " + member);
        }
        return m;
    }

    private static <T> T locked(Lock lock, Supplier<T> body) {
        lock.lock();
        try {
            return body.get();
        } finally {
            lock.unlock();
        }
    }
}
