package games;

import atomic.Atomic;
import java.util.EnumMap;
import java.util.Map;
import javax.annotation.concurrent.GuardedBy;

/** A match of two sides: enums, records, switch expressions and an inner class that takes the outer object's lock. */
public class Match {
    enum Side { HOME, GUEST }

    enum Event { GOAL, OWN_GOAL, CARD, END }

    record Score(int home, int guest) {
        Score plus(Side side) {
            return side == Side.HOME ? new Score(home + 1, guest) : new Score(home, guest + 1);
        }
    }

    @GuardedBy("this") private Score score = new Score(0, 0);
    @GuardedBy("this") private boolean ended;
    @GuardedBy("this") private final Map<Side, Integer> cards = new EnumMap<>(Side.class);

    class Referee {
        private final String name;

        Referee(String name) {
            this.name = name;
        }

        @Atomic
        boolean end() {
            synchronized (Match.this) {
                if (ended) {
                    return false;
                }
                ended = true;
                return true;
            }
        }

        @Atomic
        String report() {
            synchronized (Match.this) {
                return name + ": " + score + (ended ? ", ended" : "");
            }
        }
    }

    @Atomic
    public synchronized Score tell(Event event, Side side) {
        if (ended) {
            return score;
        }
        switch (event) {
            case GOAL -> score = score.plus(side);
            case OWN_GOAL -> score = score.plus(other(side));
            case CARD -> cards.merge(side, 1, Integer::sum);
            case END -> ended = true;
        }
        return score;
    }

    @Atomic
    public synchronized Score score() {
        return score;
    }

    @Atomic
    public synchronized int points(Side side) {
        return switch (side) {
            case HOME -> score.home() > score.guest() ? 3 : score.home() == score.guest() ? 1 : 0;
            case GUEST -> {
                int lead = score.guest() - score.home();
                yield lead > 0 ? 3 : lead == 0 ? 1 : 0;
            }
        };
    }

    @Atomic
    public int cards(Side side) {
        synchronized (this) {
            return cards.getOrDefault(side, 0);
        }
    }

    private static Side other(Side side) {
        return side == Side.HOME ? Side.GUEST : Side.HOME;
    }
}
