// Who is given an object of the sources looks at its fields one by one, while others change two of them in one region.
// judged with: --public --infer
import java.util.HashMap;
import java.util.Map;

public class LiveObjectGivenOut {
    public static final class Position {
        private long cash;
        private long paper;

        public long cash() {
            return cash;
        }

        public long paper() {
            return paper;
        }
    }

    private final Map<String, Position> positions = new HashMap<>();

    public synchronized void trade(String name, long amount) { // refused
        at(name).cash -= amount;
        at(name).paper += amount;
    }

    public synchronized Position position(String name) { // refused
        return at(name);
    }

    private Position at(String name) {
        return positions.computeIfAbsent(name, key -> new Position());
    }
}

class NewObjectGivenOut {
    static final class Position {
        private long cash;
        private long paper;

        Position(long cash, long paper) {
            this.cash = cash;
            this.paper = paper;
        }

        public long cash() {
            return cash;
        }

        public long paper() {
            return paper;
        }
    }

    private final Position only = new Position(0, 0);

    public synchronized void trade(long amount) { // refused
        only.cash -= amount;
        only.paper += amount;
    }

    public synchronized Position begun() { // accepted
        return new Position(1, 2);
    }
}

class ObjectThatNeverChanges {
    static final class Limits {
        private final long low;
        private final long high;

        Limits(long low, long high) {
            this.low = low;
            this.high = high;
        }

        public long low() {
            return low;
        }

        public long high() {
            return high;
        }
    }

    private Limits limits = new Limits(0, 1);

    public synchronized void move(long by) { // accepted
        limits = new Limits(limits.low + by, limits.high + by);
    }

    public synchronized Limits limits() { // accepted
        return limits;
    }
}

class ObjectWithOwnLock {
    static final class Position {
        private long cash;
        private long paper;

        synchronized void trade(long amount) {
            cash -= amount;
            paper += amount;
        }

        public synchronized long sum() { // accepted
            return cash + paper;
        }
    }

    private final Map<String, Position> positions = new HashMap<>();

    public synchronized void open(String name) { // accepted
        positions.put(name, new Position());
    }

    public synchronized Position position(String name) { // accepted
        return positions.get(name);
    }
}
