// judged with: --public --infer
import java.util.Map;
import java.util.concurrent.ConcurrentHashMap;
import java.util.concurrent.ConcurrentMap;
import java.util.concurrent.atomic.AtomicLong;

/** Looks into a map that only grows: what was found stays so, and what wasn't may come. */
public class FoundLooks {

    public static final class Ledger {
        private static final class Purse {
            private long amount;
            private final long number;

            Purse(long number) {
                this.number = number;
            }
        }

        private final ConcurrentMap<String, Purse> purses = new ConcurrentHashMap<>();
        private final AtomicLong numbers = new AtomicLong();
        private long looks;

        public boolean open(String name) {
            return purses.putIfAbsent(name, new Purse(name.length())) == null;
        }

        public void add(String name, long amount) { // accepted
            Purse purse = purses.get(name);
            if (purse == null) {
                throw new IllegalArgumentException(name);
            }
            synchronized (purse) {
                purse.amount += amount;
            }
        }

        public long amount(String name) { // accepted
            Purse purse = find(name);
            synchronized (purse) {
                return purse.amount;
            }
        }

        public boolean has(String name, long amount) { // accepted
            Purse purse = purses.get(name);
            if (purse != null) {
                synchronized (purse) {
                    return purse.amount >= amount;
                }
            }
            return false;
        }

        public boolean move(String from, String to, long amount) { // accepted
            Purse source = find(from);
            Purse target = find(to);
            if (source == target) {
                return true;
            }
            Purse first = source.number < target.number ? source : target;
            Purse second = first == source ? target : source;
            synchronized (first) {
                synchronized (second) {
                    if (source.amount < amount) {
                        return false;
                    }
                    source.amount -= amount;
                    target.amount += amount;
                    return true;
                }
            }
        }

        public long both(String one, String two) { // refused: between the two regions another thread may move an amount
            Purse first = find(one);
            long amount;
            synchronized (first) {
                amount = first.amount;
            }
            Purse second = find(two);
            synchronized (second) {
                return amount + second.amount;
            }
        }

        public boolean counted(String name) { // refused: who sees the number may add before the look
            numbers.incrementAndGet();
            Purse purse = purses.get(name);
            if (purse == null) {
                return false;
            }
            return true;
        }

        public long number() {
            return numbers.get();
        }

        public boolean countedThere(String name) { // refused: the same, and the look stands in a method of its own
            numbers.incrementAndGet();
            return isThere(name);
        }

        private boolean isThere(String name) {
            Purse purse = purses.get(name);
            return purse == null ? false : true;
        }

        public void orAdd(String name, long amount) { // refused: nobody says that there is a purse after the look
            Purse purse = purses.get(name);
            if (purse == null) {
                open(name);
            } else {
                synchronized (purse) {
                    purse.amount += amount;
                }
            }
        }

        private Purse find(String name) {
            Purse purse = purses.get(name);
            if (purse == null) {
                throw new IllegalArgumentException("no purse of " + name);
            }
            return purse;
        }
    }

    /** The same over a map out of which something is taken. */
    public static final class Taken {
        private static final class Purse {
            private long amount;
        }

        private final Map<String, Purse> purses = new ConcurrentHashMap<>();

        public void open(String name) {
            purses.putIfAbsent(name, new Purse());
        }

        public void close(String name) {
            purses.remove(name);
        }

        public void add(String name, long amount) { // refused: the purse may be closed in the middle
            Purse purse = purses.get(name);
            if (purse == null) {
                return;
            }
            synchronized (purse) {
                purse.amount += amount;
            }
        }
    }

    /** The same over a map whose values are taken out by a view. */
    public static final class Viewed {
        private static final class Purse {
            private long amount;
        }

        private final Map<String, Purse> purses = new ConcurrentHashMap<>();

        public void open(String name) {
            purses.putIfAbsent(name, new Purse());
        }

        public void close() {
            purses.values().removeIf(purse -> true);
        }

        public void add(String name, long amount) { // refused: the purse may be closed in the middle
            Purse purse = purses.get(name);
            if (purse == null) {
                return;
            }
            synchronized (purse) {
                purse.amount += amount;
            }
        }
    }

    /** The same over a map whose values are replaced. */
    public static final class Replaced {
        private static final class Purse {
            private long amount;
        }

        private final Map<String, Purse> purses = new ConcurrentHashMap<>();

        public synchronized void open(String name) {
            if (!purses.containsKey(name)) {
                purses.put(name, new Purse());
            }
        }

        public void add(String name, long amount) { // refused: a put may replace what another thread has put there
            Purse purse = purses.get(name);
            if (purse == null) {
                return;
            }
            synchronized (purse) {
                purse.amount += amount;
            }
        }

        public void renew(String name) { // refused: between the look and the change another thread may come in
            if (!purses.containsKey(name)) {
                purses.putIfAbsent(name, new Purse());
            }
        }
    }
}
