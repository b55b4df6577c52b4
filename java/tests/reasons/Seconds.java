// judged with: --public --infer
import java.util.*;
import java.util.concurrent.*;
import java.util.concurrent.atomic.*;

/** Second steps that decide nothing, and beside them what looks like it. */
public class Seconds {

    /** An idle write whose look decides more, and values that change. */
    public static final class Idle {
        private volatile boolean open;
        private volatile int last;
        public boolean closeFirst() { // refused: certain: two get true
            if (open) { open = false; return true; }
            return false;
        }
        public void open() { if (!open) open = true; } // accepted
        public void note(int n) { if (last != n) last = n; } // accepted
        public void noteMore(int n) { if (last != n) last = n + 1; } // refused: certain: another value
        public void raise(int n) { if (last < n) last = n; } // refused: certain: an older one may win
        public void twice(int n) { if (last != n) { last = n; } if (last != n) last = n; } // refused: certain: two writes
        public int last() { return last; } // accepted
    }

    /** Questions that aren't asked again. */
    public static final class Gate {
        private int size;
        private final int most = 9;
        private boolean running;
        public synchronized int size() { return size; }
        public synchronized boolean isFull() { return size == most; }
        public synchronized boolean isRunning() { return running; }
        public synchronized boolean put() { if (size == most) return false; size++; return true; }
        public synchronized void putHard() { if (size == most) throw new IllegalStateException(); size++; }
        public synchronized void putAnyway() { size++; }
        public synchronized void putRunning() { if (!running) return; size++; }
        public synchronized void start() { if (running) return; running = true; }
        public synchronized void flip() { running = !running; }
        public void tryPut() { if (!isFull()) put(); } // refused: perhaps: put asks again
        public void tryHard() { if (!isFull()) putHard(); } // refused: certain: throws though it has looked
        public void tryAnyway() { if (!isFull()) putAnyway(); } // refused: certain: past the end
        public void tryOther() { if (!isFull()) putRunning(); } // refused: certain: asks another thing
        public void tryWrong() { if (isFull()) put(); } // refused: certain: the other way round
        public void tryFlip() { if (isRunning()) flip(); } // refused: certain: another thread comes in between
        public boolean tryGive() { // refused: certain: true though it wasn't put
            if (!isFull()) { put(); return true; }
            return false;
        }
    }

    /** A registry that grows, in a map with a lock. */
    public static final class Registry {
        public static final class Node { int id; int hits; Node(int id) { this.id = id; } }
        private final Map<String, Node> nodes = new HashMap<>();
        public boolean add(String k) { // accepted
            synchronized (nodes) { if (nodes.get(k) != null) return false; nodes.put(k, new Node(nodes.size())); return true; }
        }
        private Node find(String k) { synchronized (nodes) { return nodes.get(k); } }
        public boolean has(String k) { synchronized (nodes) { return nodes.containsKey(k); } } // accepted
        public boolean hasBoth(String a, String b) { return has(a) && has(b); } // refused: perhaps: what is found stays
        public void ensure(String k) { if (!has(k)) add(k); } // refused: perhaps: add asks again
        public boolean ensureFirst(String k) { // refused: certain: two get true
            if (!has(k)) { add(k); return true; }
            return false;
        }
        public int hit(String k) { // refused: perhaps: what is found stays
            Node n = find(k);
            if (n == null) return -1;
            synchronized (n) { return ++n.hits; }
        }
        public int sizeTwice() { // refused: certain: an odd sum
            int s;
            synchronized (nodes) { s = nodes.size(); }
            synchronized (nodes) { return s + nodes.size(); }
        }
        public int hitTwice(String k) { // refused: certain: another thread comes in between
            Node n = find(k);
            if (n == null) return -1;
            synchronized (n) { n.hits++; }
            synchronized (n) { return n.hits; }
        }
    }

    /** The same with removal, with replacing, and with a put over what is there. */
    public static final class Removing {
        private final Map<String, StringBuilder> nodes = new HashMap<>();
        public boolean has(String k) { synchronized (nodes) { return nodes.containsKey(k); } } // accepted
        public boolean add(String k) { // accepted
            synchronized (nodes) { if (nodes.containsKey(k)) return false; nodes.put(k, new StringBuilder()); return true; }
        }
        public void remove(String k) { synchronized (nodes) { nodes.remove(k); } } // accepted
        public int length(String k) { // refused: certain: found, and then gone
            if (!has(k)) return -1;
            synchronized (nodes) { return nodes.get(k).length(); }
        }
        public boolean hasBoth(String a, String b) { // refused: certain: another thread comes in between
            return has(a) && has(b);
        }
    }
    public static final class PuttingOver {
        private final Map<String, Integer> nodes = new HashMap<>();
        public void put(String k, int v) { // accepted
            synchronized (nodes) { Integer old = nodes.get(k); nodes.put(k, old == null ? v : old + v); }
        }
        public int get(String k) { synchronized (nodes) { return nodes.getOrDefault(k, 0); } } // accepted
        public int twice(String k) { return get(k) + get(k); } // refused: certain: another thread comes in between
        public void raise(String k, int v) { // refused: certain: another thread comes in between
            if (get(k) < v) { synchronized (nodes) { nodes.put(k, v); } }
        }
    }

    /** Caches that aren't. */
    public static final class NoCache {
        private int seed = 1;
        private volatile int drawn;
        private volatile String mode;
        private final String name = "a";
        public synchronized void seed(int s) { seed = s; } // accepted
        public int drawn() { // refused: certain: an old one may be kept
            int d = drawn;
            if (d == 0) { synchronized (this) { d = seed * 3; } drawn = d; }
            return d;
        }
        public boolean first() { // refused: certain: two get true
            if (mode == null) { mode = name.concat("b"); return true; }
            return false;
        }
        public void grow() { mode = mode + name; } // refused: certain: lost
    }

    /** An iterator that is shared, and one that walks over what others change. */
    public static final class Walk implements Iterable<Integer> {
        private final List<Integer> all = new ArrayList<>();
        public synchronized void add(int n) { all.add(n); } // accepted
        public synchronized int size() { return all.size(); } // accepted
        public synchronized int get(int k) { return all.get(k); } // accepted
        public synchronized void clear() { all.clear(); } // accepted
        public Iterator<Integer> iterator() { return new Steps(); } // accepted
        public final class Steps implements Iterator<Integer> {
            private int next;
            private volatile int shared;
            public boolean hasNext() { return next < size(); } // refused: perhaps: next belongs to who walks
            public Integer next() { // refused: certain: cleared between
                if (!hasNext()) throw new NoSuchElementException();
                return get(next++);
            }
            public int step() { return shared++; } // refused: certain: volatile
        }
    }

    /** Maxima. */
    public static final class Maxima {
        private final AtomicInteger most = new AtomicInteger();
        private final AtomicInteger least = new AtomicInteger();
        public boolean seen(int n) { // refused: certain: two with the same number both get true
            if (n <= most.get()) return false;
            most.accumulateAndGet(n, Math::max);
            return true;
        }
        public void both(int n) { // refused: certain: torn
            most.accumulateAndGet(n, Math::max);
            least.accumulateAndGet(n, Math::min);
        }
        public int span() { return most.get() - least.get(); } // refused: certain: torn look
    }

    /** Flags. */
    public static final class TwoFlags {
        private volatile boolean open;
        private volatile boolean ready;
        public void begin() { open = true; ready = true; } // refused: certain: the one without the other
        public boolean odd() { return open && !ready; } // refused: certain: another thread comes in between
        public void again() { open = true; open = true; } // refused: perhaps: what is found stays
    }

    /** Entries that are taken out and looked at. */
    public static final class Taken {
        private final ConcurrentHashMap<String, AtomicLong> sums = new ConcurrentHashMap<>();
        public void add(String k, long n) { // refused: certain: lost
            sums.computeIfAbsent(k, x -> new AtomicLong()).addAndGet(n);
        }
        public long swap(String k) { // refused: perhaps: who adds then has the new one
            AtomicLong old = sums.put(k, new AtomicLong());
            return old == null ? 0 : old.get();
        }
    }
    public static final class Handed {
        private static final class Box { private int n; synchronized void add() { n++; } synchronized int n() { return n; } }
        private Box box;
        private synchronized Box box() { if (box == null) box = new Box(); return box; }
        public void add() { box().add(); } // refused: certain: added to a box that was handed out
        public synchronized Object take() { Box old = box; box = null; return old; } // accepted
    }
}
