// judged with: --public --infer
import java.util.HashMap;
import java.util.Map;
import java.util.concurrent.ConcurrentHashMap;
import java.util.concurrent.atomic.AtomicBoolean;
import java.util.concurrent.atomic.AtomicInteger;

/** Each reason for which an error is certain, and beside it what looks like it and is none. */
public class Reasons {

    public static final class Purse {
        private int money;
        private int coins;
        private int notes;

        public synchronized int money() {
            return money;
        }

        public synchronized void add(int more) {
            money += more;
        }

        public void take() { // refused: certain: check-then-act
            if (money() > 0) {
                add(-1);
            }
        }

        public void both() { // refused: certain: a torn pair
            synchronized (this) {
                coins++;
            }
            synchronized (this) {
                notes++;
            }
        }

        public synchronized int sum() {
            return coins + notes;
        }

        public String shown() { // refused: certain: a torn look
            int first;
            synchronized (this) {
                first = coins;
            }
            synchronized (this) {
                return first + "/" + notes;
            }
        }

        public synchronized void set(int value) {
            coins = value;
            notes = value;
        }
    }

    public static final class Apart {
        private int hits;
        private int log;

        public void count() { // refused: perhaps: no method needs both
            synchronized (this) {
                hits++;
            }
            synchronized (this) {
                log = 1;
            }
        }

        public synchronized int hits() {
            return hits;
        }

        public synchronized int log() {
            return log;
        }
    }

    public static final class Lost {
        private volatile int steps;

        public void step() { // refused: certain: a lost update
            steps++;
        }
    }

    public static final class Outside {
        private int changes;
        private int value;

        public synchronized void set(int next) { // refused: certain: touch may count in the middle, before it takes the lock
            changes++;
            value = next;
        }

        public void touch() { // refused: certain: a lost update
            changes++;
            synchronized (this) {
                value = 0;
            }
        }

        public synchronized int both() { // refused: certain: touch may count between the two looks
            int first = changes;
            return first == changes ? value : first;
        }
    }

    public static final class Tickets {
        private final AtomicInteger next = new AtomicInteger();

        public int draw() {
            int old;
            do {
                old = next.get();
            } while (!next.compareAndSet(old, old + 1));
            return old;
        }

        public long pair() { // refused: certain: another thread may draw between the two
            return 10L * draw() + draw();
        }
    }

    public static final class Ticks {
        private final AtomicInteger ticks = new AtomicInteger();

        public void tick() {
            int old;
            do {
                old = ticks.get();
            } while (!ticks.compareAndSet(old, old + 1));
        }

        public void twice() { // refused: perhaps: nobody asks how many there were
            tick();
            tick();
        }
    }

    public static final class Registry {
        private final Map<String, AtomicInteger> all = new ConcurrentHashMap<>();

        public void open(String name) {
            all.putIfAbsent(name, new AtomicInteger());
        }

        public void close(String name) {
            all.remove(name);
        }

        public void count(String name) { // refused: perhaps: a look-up and then work on what was found
            AtomicInteger found = all.get(name);
            if (found != null) {
                found.incrementAndGet();
            }
        }
    }

    public static final class Emptied {
        private final Map<String, AtomicInteger> all = new ConcurrentHashMap<>();

        public int close(String name) { // refused: certain: what is taken out goes on counting
            AtomicInteger found = all.remove(name);
            return found == null ? 0 : found.get();
        }

        public void count(String name) { // refused: certain: what was found may be taken out and read before it counts
            AtomicInteger found = all.get(name);
            if (found != null) {
                found.incrementAndGet();
            }
        }
    }

    public static final class Cache {
        private final Map<String, String> values = new HashMap<>();

        private synchronized String peek(String key) {
            return values.get(key);
        }

        public String get(String key) { // refused: alarm: the region asks again
            String value = peek(key);
            if (value != null) {
                return value;
            }
            synchronized (this) {
                value = values.get(key);
                if (value == null) {
                    value = key.trim();
                    values.put(key, value);
                }
                return value;
            }
        }

        public String careless(String key) { // refused: certain: the region asks nothing
            String value = peek(key);
            if (value == null) {
                value = key.trim();
                synchronized (this) {
                    values.put(key, value);
                }
            }
            return value;
        }
    }

    public static final class Clock {
        private final AtomicBoolean started = new AtomicBoolean();
        private volatile long since;

        public void start(long now) { // refused: fault: one may see it started without its time
            if (started.compareAndSet(false, true)) {
                since = now;
            }
        }

        public long time(long now) { // refused: alarm: it never stops again
            return started.get() ? now - since : 0;
        }
    }
}
