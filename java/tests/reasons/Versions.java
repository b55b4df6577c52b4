// judged with: --public --infer
import java.util.HashMap;
import java.util.Map;
import java.util.concurrent.ConcurrentHashMap;
import java.util.concurrent.ConcurrentMap;
import java.util.concurrent.atomic.AtomicInteger;
import java.util.concurrent.atomic.AtomicLong;
import java.util.function.LongUnaryOperator;

/** Versions that only grow, looks at what changes one by one, and changes that try again, each beside what looks like it. */
public class Versions {

    public static final class Growing {
        private volatile Map<String, AtomicLong> all = Map.of();

        public synchronized void open(String name) {
            if (!all.containsKey(name)) {
                Map<String, AtomicLong> copy = new HashMap<>(all);
                copy.put(name, new AtomicLong());
                all = Map.copyOf(copy);
            }
        }

        public long opened(String name) { // refused: certain: it is seen opened and not yet counted
            open(name);
            return all.get(name).incrementAndGet();
        }

        public long value(String name) { // refused: perhaps: what was found stays there
            AtomicLong found = all.get(name);
            return found == null ? 0 : found.get();
        }

        public void change(String name, LongUnaryOperator change) { // refused: perhaps: one change, whatever it does
            AtomicLong found = all.get(name);
            if (found != null) {
                found.updateAndGet(change);
            }
        }
    }

    public static final class Shrinking {
        private volatile Map<String, AtomicLong> all = Map.of();

        public synchronized void open(String name) {
            Map<String, AtomicLong> copy = new HashMap<>(all);
            copy.putIfAbsent(name, new AtomicLong());
            all = Map.copyOf(copy);
        }

        public synchronized long close(String name) { // refused: fault: what is taken out goes on counting
            Map<String, AtomicLong> copy = new HashMap<>(all);
            AtomicLong closed = copy.remove(name);
            all = Map.copyOf(copy);
            return closed == null ? 0 : closed.get();
        }

        public long opened(String name) { // refused: certain: it may be closed in between
            open(name);
            return all.get(name).incrementAndGet();
        }

        public long value(String name) { // refused: certain: it may be taken out and opened anew
            AtomicLong found = all.get(name);
            return found == null ? 0 : found.get();
        }
    }

    public static final class OneByOne {
        private final AtomicInteger hits = new AtomicInteger();
        private final AtomicInteger misses = new AtomicInteger();
        private volatile boolean closed;

        public void hit() {
            hits.incrementAndGet();
        }

        public void miss() {
            misses.incrementAndGet();
        }

        public void close() {
            closed = true;
        }

        public double ratio() { // refused: certain: a hit and then a miss come in between, and only the miss is seen
            int all = hits.get();
            return 1.0 * all / (all + misses.get());
        }

        public int open() { // refused: perhaps: nobody hits what is closed, as far as is seen
            return closed ? 0 : hits.get();
        }
    }

    public static final class Again {
        private final ConcurrentMap<String, Integer> left = new ConcurrentHashMap<>();

        public int left(String key) {
            return left.getOrDefault(key, 0);
        }

        public void put(String key, int value) {
            left.put(key, value);
        }

        public boolean take(String key) { // accepted
            for (;;) {
                Integer old = left.get(key);
                if (old == null || old < 1) {
                    return false;
                }
                if (left.replace(key, old, old - 1)) {
                    return true;
                }
            }
        }

        public boolean takeTwo(String key) { // refused: certain: one is seen to be taken, and not yet the other one
            return take(key) && take(key);
        }

        public boolean takeFirst(String key) { // refused: perhaps: the loop asks again
            Integer seen = left.get(key);
            return seen != null && seen > 0 && take(key);
        }

        public void half() { // refused: certain: one key after the other
            left.replaceAll((key, value) -> value / 2);
        }
    }
}
