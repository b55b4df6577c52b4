// judged with: --public --infer
package com.example.twentieth;

import java.util.ArrayList;
import java.util.List;
import java.util.OptionalLong;
import java.util.concurrent.ConcurrentHashMap;
import java.util.concurrent.ConcurrentMap;
import java.util.concurrent.locks.ReentrantLock;

/**
 * Gift cards and what is left on them.
 */
public final class GiftCardBank {

    private static final class Card {
        final String code;
        final ReentrantLock lock = new ReentrantLock();
        long cents;
        boolean retired;
        volatile boolean blocked;

        Card(String code, long cents) {
            this.code = code;
            this.cents = cents;
        }
    }

    private final ConcurrentMap<String, Card> cards = new ConcurrentHashMap<>();

    public boolean issue(String code, long cents) { // accepted
        return cards.putIfAbsent(code, new Card(code, cents)) == null;
    }

    public boolean exists(String code) { // accepted
        return cards.containsKey(code);
    }

    public OptionalLong balance(String code) { // accepted
        Card card = cards.get(code);
        if (card == null) {
            return OptionalLong.empty();
        }
        card.lock.lock();
        try {
            return card.retired ? OptionalLong.empty() : OptionalLong.of(card.cents);
        } finally {
            card.lock.unlock();
        }
    }

    public boolean charge(String code, long cents) { // refused: fault: blocked is looked at before the lock: A sees it unblocked, B blocks the card and reads balance 100, A then takes the money from a blocked card
        Card card = cards.get(code);
        if (card == null || card.blocked) {
            return false;
        }
        card.lock.lock();
        try {
            if (card.retired || card.cents < cents) {
                return false;
            }
            card.cents -= cents;
            return true;
        } finally {
            card.lock.unlock();
        }
    }

    public boolean reload(String code, long cents) { // refused: fault: retired is not looked at under the lock: A finds the card, B retires it and is told 100, A adds 50 to the dead card and returns true
        Card card = cards.get(code);
        if (card == null) {
            return false;
        }
        card.lock.lock();
        try {
            card.cents += cents;
            return true;
        } finally {
            card.lock.unlock();
        }
    }

    public boolean transfer(String from, String to, long cents) { // refused: alarm: both card locks, in order, and both retired flags looked at under them
        Card source = cards.get(from);
        Card target = cards.get(to);
        if (source == null || target == null || source == target) {
            return false;
        }
        boolean inOrder = from.compareTo(to) < 0;
        Card first = inOrder ? source : target;
        Card second = inOrder ? target : source;
        first.lock.lock();
        try {
            second.lock.lock();
            try {
                if (source.retired || target.retired || source.cents < cents) {
                    return false;
                }
                source.cents -= cents;
                target.cents += cents;
                return true;
            } finally {
                second.lock.unlock();
            }
        } finally {
            first.lock.unlock();
        }
    }

    /** Takes the card out of circulation and tells what was left on it. */
    public long retire(String code) { // accepted
        Card card = cards.get(code);
        if (card == null) {
            return 0;
        }
        card.lock.lock();
        try {
            if (card.retired) {
                return 0;
            }
            card.retired = true;
            cards.remove(code, card);
            return card.cents;
        } finally {
            card.lock.unlock();
        }
    }

    public boolean block(String code) { // refused: alarm: get and one volatile write; on a card retired meanwhile it counts as just before the retirement
        Card card = cards.get(code);
        if (card == null) {
            return false;
        }
        card.blocked = true;
        return true;
    }

    public boolean isBlocked(String code) { // refused: alarm: get and one volatile read; on a card retired meanwhile it counts as just before the retirement
        Card card = cards.get(code);
        return card != null && card.blocked;
    }

    public long total() { // refused: fault: a region for each card: A adds card x, B transfers 50 from y to x, A adds y: 50 too little
        long sum = 0;
        for (Card card : cards.values()) {
            sum += balance(card.code).orElse(0);
        }
        return sum;
    }

    public List<String> emptyCards() { // refused: fault: a region for each card: A finds x not empty, B transfers all of x to the empty y, A finds y not empty: says none is empty though one always was
        List<String> codes = new ArrayList<>();
        cards.forEach((code, card) -> {
            card.lock.lock();
            try {
                if (card.cents == 0) {
                    codes.add(code);
                }
            } finally {
                card.lock.unlock();
            }
        });
        return codes;
    }
}
