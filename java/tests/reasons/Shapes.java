// judged with: --public --infer
import java.util.*;
import java.util.concurrent.*;
import java.util.concurrent.atomic.*;

/** Two steps in which a careful reader sees no interruption, and beside them what looks like it. */
public class Shapes {

    /** Idempotent second step: a flag set twice to the same. */
    public static final class Idempotent {
        private volatile boolean dirty;
        private int value;
        public void touch(int v) { // refused: perhaps: sets the flag, then the value, then the flag again under lock
            synchronized (this) { value = v; dirty = true; }
            dirty = true;
        }
        public synchronized int value() { return value; }
        public boolean dirty() { return dirty; }
    }

    /** Flag that goes one way, looked at twice. */
    public static final class CloseFlag {
        private volatile boolean closed;
        private int sent;
        public void close() { closed = true; }
        public boolean send() { // accepted
            if (closed) return false;
            synchronized (this) {
                if (closed) return false;
                sent++;
                return true;
            }
        }
        public synchronized int sent() { return sent; }
        public boolean check() { // refused: perhaps: a flag that never goes back, twice
            return closed && closed;
        }
        public void closeOnce() { // accepted
            if (!closed) closed = true;
        }
    }

    /** One-shot under lock with an outer call. */
    public static final class Starter {
        private boolean running;
        private int starts;
        public synchronized boolean isRunning() { return running; }
        public synchronized void start() { if (running) return; running = true; starts++; }
        public synchronized void stop() { if (!running) return; running = false; }
        public void ensureStarted() { if (!isRunning()) start(); } // refused: perhaps: start asks again
        public void ensureStopped() { if (isRunning()) { stop(); } } // refused: perhaps: stop asks again
        public boolean startFirst() { if (!isRunning()) { start(); return true; } return false; } // refused: certain: two get true
        public void toggle() { if (isRunning()) stop(); else start(); } // refused: certain: two toggles at once may both stop
        public synchronized int starts() { return starts; }
    }

    /** Monotone counter: waits that look at it twice. */
    public static final class Monotone {
        private final AtomicLong highest = new AtomicLong();
        public void seen(long n) { // refused: perhaps: a maximum
            if (n <= highest.get()) return;
            highest.accumulateAndGet(n, Math::max);
        }
        public boolean reached(long n) { return highest.get() >= n; } // accepted
        public void seenLoop(long n) { // refused: perhaps: tries again where somebody came in between
            long now = highest.get();
            while (n > now && !highest.compareAndSet(now, n)) now = highest.get();
        }
        public void seenBroken(long n) { // refused: certain: an older one may win
            if (n > highest.get()) highest.set(n);
        }
    }

    /** A cache of what each computes alike. */
    public static final class Hashed {
        private final String name;
        private volatile int hash;
        private volatile String text;
        public Hashed(String name) { this.name = name; }
        public int hash() { // refused: perhaps: each computes the same
            int h = hash;
            if (h == 0) { h = name.length() * 31 + 7; hash = h; }
            return h;
        }
        public String text() { // refused: perhaps: each computes the same
            String t = text;
            if (t == null) { t = "<" + name + ">"; text = t; }
            return t;
        }
    }

    /** Cache of a result that mutation drops: a stale one may be put back. */
    public static final class Stale {
        private final List<String> all = new ArrayList<>();
        private volatile String text;
        public void add(String s) { synchronized (this) { all.add(s); text = null; } } // accepted
        public String text() { // refused: certain: makes the text, another adds, the old text is kept
            String t = text;
            if (t == null) {
                synchronized (this) { t = all.toString(); }
                text = t;
            }
            return t;
        }
    }

    /** Snapshot swapped by one write. */
    public static final class Snapshot {
        private volatile List<String> names = List.of();
        public synchronized void add(String n) { // accepted
            List<String> copy = new ArrayList<>(names);
            copy.add(n);
            names = List.copyOf(copy);
        }
        public boolean both(String a, String b) { // accepted
            List<String> now = names;
            return now.contains(a) && now.contains(b);
        }
        public boolean bothBroken(String a, String b) { return names.contains(a) && names.contains(b); } // refused: perhaps: two versions, each only larger
        public String firstOr(String other) { return names.isEmpty() ? other : names.get(0); } // refused: perhaps: versions only grow
    }

    /** Lock of each key by computeIfAbsent. */
    public static final class KeyLocks {
        private final ConcurrentHashMap<String, Object> locks = new ConcurrentHashMap<>();
        private final ConcurrentHashMap<String, Integer> values = new ConcurrentHashMap<>();
        public void add(String k, int n) { // refused: perhaps: the lock of a key never changes
            Object lock = locks.computeIfAbsent(k, x -> new Object());
            synchronized (lock) {
                Integer old = values.get(k);
                values.put(k, old == null ? n : old + n);
            }
        }
        public int get(String k) { return values.getOrDefault(k, 0); } // accepted
    }

    /** Stripes: a lock by an index. */
    public static final class Stripes {
        private final Object[] locks = new Object[16];
        private final int[] counts = new int[16];
        public Stripes() { for (int i = 0; i < 16; i++) locks[i] = new Object(); }
        public void add(String k) { // refused: perhaps: each lock has counts of its own
            int i = Math.floorMod(k.hashCode(), 16);
            synchronized (locks[i]) { counts[i]++; }
        }
        public int count(String k) { // accepted
            int i = Math.floorMod(k.hashCode(), 16);
            synchronized (locks[i]) { return counts[i]; }
        }
    }

    /** Counters in a map that only grows. */
    public static final class Counters {
        private final ConcurrentHashMap<String, LongAdder> counts = new ConcurrentHashMap<>();
        public void hit(String k) { counts.computeIfAbsent(k, x -> new LongAdder()).increment(); } // refused: perhaps: an empty one is as good as none
        public long count(String k) { LongAdder a = counts.get(k); return a == null ? 0 : a.sum(); } // refused: perhaps: what is found stays
        public boolean known(String k) { return counts.containsKey(k); } // accepted
        private final ConcurrentHashMap<String, AtomicLong> sums = new ConcurrentHashMap<>();
        public void add(String k, long n) { // refused: perhaps: an empty one is as good as none
            sums.computeIfAbsent(k, x -> new AtomicLong()).addAndGet(n);
        }
        public long sum(String k) { AtomicLong a = sums.get(k); return a == null ? 0 : a.get(); } // accepted
        public void addOld(String k, long n) { // refused: perhaps: put if absent, then the one that is there
            AtomicLong a = sums.get(k);
            if (a == null) {
                AtomicLong made = new AtomicLong();
                AtomicLong other = sums.putIfAbsent(k, made);
                a = other == null ? made : other;
            }
            a.addAndGet(n);
        }
    }

    /** The same with counters that are dropped. */
    public static final class Dropped {
        private final ConcurrentHashMap<String, AtomicLong> sums = new ConcurrentHashMap<>();
        public void add(String k, long n) { sums.computeIfAbsent(k, x -> new AtomicLong()).addAndGet(n); } // refused: perhaps: as if before the drop
        public long sum(String k) { AtomicLong a = sums.get(k); return a == null ? 0 : a.get(); } // refused: perhaps: what is found stays
        public void drop(String k) { sums.remove(k); } // accepted
    }

    /** .. and drained. */
    public static final class Drained {
        private final ConcurrentHashMap<String, AtomicLong> sums = new ConcurrentHashMap<>();
        public void add(String k, long n) { sums.computeIfAbsent(k, x -> new AtomicLong()).addAndGet(n); } // refused: certain: lost in the drained one
        public long drain(String k) { AtomicLong a = sums.remove(k); return a == null ? 0 : a.get(); } // refused: perhaps: who adds meanwhile makes a new one
    }

    /** A lazily made object in a field, dropped, drained, or swapped. */
    public static final class LazyDropped {
        private static final class Box { private int n; synchronized void add() { n++; } synchronized int n() { return n; } }
        private Box box;
        private synchronized Box box() { if (box == null) box = new Box(); return box; }
        public void add() { box().add(); } // refused: perhaps: as if before the drop
        public int n() { return box().n(); } // refused: perhaps: what is found stays
        public synchronized void drop() { box = null; } // accepted
    }
    public static final class LazyDrained {
        private static final class Box { private int n; synchronized void add() { n++; } synchronized int n() { return n; } }
        private Box box;
        private synchronized Box box() { if (box == null) box = new Box(); return box; }
        public void add() { box().add(); } // refused: certain: added to a drained box
        public int drain() { // refused: perhaps: who adds meanwhile makes a new one
            Box old;
            synchronized (this) { old = box; box = null; }
            return old == null ? 0 : old.n();
        }
    }
    public static final class LazySwapped {
        private static final class Box { private int n; synchronized void add() { n++; } synchronized int n() { return n; } }
        private volatile Box box = new Box();
        public void add() { box.add(); } // refused: certain: added to the one that was swapped out
        public synchronized int swap() { Box old = box; box = new Box(); return old.n(); } // refused: who comes in between has the new one
    }

    /** Copy-on-write array in a volatile field. */
    public static final class Listeners {
        private volatile Runnable[] all = new Runnable[0];
        public synchronized void add(Runnable r) { // accepted
            Runnable[] copy = Arrays.copyOf(all, all.length + 1);
            copy[copy.length - 1] = r;
            all = copy;
        }
        public int size() { return all.length; } // accepted
        public Runnable last() { Runnable[] now = all; return now.length == 0 ? null : now[now.length - 1]; } // accepted
        public Runnable lastBroken() { return all.length == 0 ? null : all[all.length - 1]; } // refused: certain: the array is the older one, its length that of the newer
    }

    /** Latch. */
    public static final class OneShot {
        private final CountDownLatch done = new CountDownLatch(1);
        private volatile String result;
        public void finish(String r) { // refused: perhaps: two finish, the later one changes the result
            result = r;
            done.countDown();
        }
        public String await() throws InterruptedException { done.await(); return result; } // refused: perhaps: with one finish only
        public boolean isDone() { return done.getCount() == 0; } // accepted
    }

    /** A result set once by compareAndSet, then looked at. */
    public static final class SetOnce {
        private final AtomicReference<String> value = new AtomicReference<>();
        public String setOrGet(String v) { // refused: perhaps: what is there stays
            value.compareAndSet(null, v);
            return value.get();
        }
        public String get() { return value.get(); } // accepted
        public boolean isSet() { return value.get() != null && value.get().length() > 0; } // refused: perhaps: stays
    }

    /** Thread local. */
    public static final class Locals {
        private final ThreadLocal<StringBuilder> buffer = ThreadLocal.withInitial(StringBuilder::new);
        private final ThreadLocal<Integer> depth = new ThreadLocal<>();
        public String join(String a, String b) { // refused: perhaps: the text belongs to the thread
            StringBuilder all = buffer.get();
            all.setLength(0);
            return all.append(a).append(b).toString();
        }
        public void enter() { Integer d = depth.get(); depth.set(d == null ? 1 : d + 1); } // accepted
    }

    /** An optional in a field. */
    public static final class Maybe {
        private volatile Optional<String> name = Optional.empty();
        public void set(String n) { name = Optional.of(n); } // accepted
        public String nameOr(String other) { return name.orElse(other); } // accepted
    }

    /** Builder. */
    public static final class Builder {
        private int size;
        private String name;
        public Builder size(int n) { size = n; return this; } // accepted
        public Builder name(String n) { name = n; return this; } // accepted
        public String build() { return name + size; } // refused: perhaps: one thread's own
    }

    /** What is only called a builder, and has an heir that threads share. */
    public abstract static class AbstractTextBuilder {
        int size;
        String name;
        AbstractTextBuilder size(int n) { size = n; return this; }
        AbstractTextBuilder name(String n) { name = n; size = n.length(); return this; }
        public String text() { return name + size; } // refused: certain: the two may be changed in between
    }

    /** Such an heir. */
    public static final class SharedText extends AbstractTextBuilder {
        public AbstractTextBuilder named(String n) { return name(n); } // refused: certain: two changes, and a look at both
    }
}
