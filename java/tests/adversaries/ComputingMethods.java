// A method that only computes may be called again and again; one that looks like it and does more may not.
// judged with: --infer
import java.util.concurrent.ConcurrentHashMap;
import java.util.concurrent.ConcurrentMap;
import java.util.concurrent.atomic.AtomicInteger;
import java.util.concurrent.atomic.AtomicReference;

class ComputingMethods {
    record Range(int low, int high) {
        Range {
            if (low > high) {
                throw new IllegalArgumentException();
            }
        }

        Range with(int value) {
            return new Range(Math.min(low, value), Math.max(high, value));
        }

        Range wider() {
            return with(low - 1).with(high + 1);
        }
    }

    private static final AtomicInteger CALLS = new AtomicInteger();
    private final AtomicReference<Range> range = new AtomicReference<>(new Range(0, 0));
    private final ConcurrentMap<String, Range> ranges = new ConcurrentHashMap<>();
    private volatile int least;

    private Range counted(Range old) {
        CALLS.incrementAndGet();
        return old;
    }

    private Range bounded(Range old) {
        return old.with(least);
    }

    /* atomic */ Range widen() { // accepted
        return range.updateAndGet(Range::wider);
    }

    /* atomic */ void see(int value) { // accepted
        Range old;
        do {
            old = range.get();
        } while (!range.compareAndSet(old, old.with(value)));
    }

    /* atomic */ Range of(String name) { // accepted
        return ranges.computeIfAbsent(name, key -> new Range(0, 1));
    }

    /* atomic */ void merge(String name, Range more) { // accepted
        ranges.merge(name, more, (one, other) -> one.with(other.low()).with(other.high()));
    }

    /* atomic */ Range count() { // refused: each call is counted
        return range.updateAndGet(old -> counted(old));
    }

    /* atomic */ Range bound() { // refused: each call looks at a field that changes
        return range.updateAndGet(old -> bounded(old));
    }

    /* atomic */ Range countOnKey(String name) { // refused: the count is a second step
        return ranges.computeIfPresent(name, (key, old) -> counted(old));
    }

    /* atomic */ void turn() { // refused: each turn is counted
        Range old;
        do {
            old = range.get();
        } while (!range.compareAndSet(old, counted(old)));
    }

    /* atomic */ Range twice(String name) { // refused: two steps
        ranges.computeIfAbsent(name, key -> new Range(0, 1));
        return ranges.computeIfPresent(name, (key, old) -> old.wider());
    }
}

class ComputingOverridden {
    static class Step {
        int next(int old) {
            return old + 1;
        }
    }

    static class Counted extends Step {
        static volatile int calls;

        @Override
        int next(int old) {
            calls++;
            return old + 2;
        }
    }

    private final AtomicInteger value = new AtomicInteger();

    /* atomic */ int update(Step step) { // refused: another method may run in its place
        return value.updateAndGet(old -> step.next(old));
    }
}

class ComputingRegisters {
    static final ConcurrentMap<Object, Boolean> ALL = new ConcurrentHashMap<>();

    static class Part {
        final int number;

        Part(int number) {
            this.number = number;
            ALL.put(this, true);
        }
    }

    static class Plain {
        final int number;
        final ComputingRegisters owner = new ComputingRegisters();

        Plain(int number) {
            this.number = number;
        }
    }

    static class Numbered {
        static final AtomicInteger NUMBERS = new AtomicInteger();
        final int number = NUMBERS.incrementAndGet();
    }

    private final ConcurrentMap<Integer, Numbered> numbered = new ConcurrentHashMap<>();
    private final ConcurrentMap<Integer, Part> parts = new ConcurrentHashMap<>();
    private final ConcurrentMap<Integer, Plain> plain = new ConcurrentHashMap<>();

    /* atomic */ Part part(int number) { // refused: others know it before the map has it
        return parts.computeIfAbsent(number, Part::new);
    }

    /* atomic */ Numbered numbered(int number) { // refused: the number is drawn before the map has it
        return numbered.computeIfAbsent(number, key -> new Numbered());
    }

    /* atomic */ Plain plain(int number) { // accepted
        return plain.computeIfAbsent(number, Plain::new);
    }
}

class ComputingOnPlainMap {
    private final java.util.Map<String, Integer> counts;

    ComputingOnPlainMap(java.util.Map<String, Integer> counts) {
        this.counts = counts;
    }

    /* atomic */ void count(String name) { // refused: others may change the map
        counts.merge(name, 1, Integer::sum);
    }
}

class SetOnceToNull {
    private volatile String name;

    /* atomic */ String name() { // refused: what it is set to may be null, and then it is set again
        if (name == null) {
            synchronized (this) {
                if (name == null) {
                    name = System.getenv("NAME");
                }
            }
        }
        return name;
    }
}

class SetOnce {
    private volatile String name;

    /* atomic */ String name() { // accepted
        if (name == null) {
            synchronized (this) {
                if (name == null) {
                    name = String.valueOf(1).trim();
                }
            }
        }
        return name;
    }
}

class FlagThatGoesBack {
    private volatile boolean closed;
    private int size;

    void reopen() {
        closed = false;
    }

    /* atomic */ synchronized void put() throws InterruptedException { // refused: it may have been opened again
        while (size == 9 && !closed) {
            wait();
        }
        if (closed) {
            return;
        }
        size++;
    }

    synchronized void close() {
        closed = true;
        notifyAll();
    }
}

class EntriesOfMap {
    private final java.util.Map<String, Integer> counts = new java.util.TreeMap<>();

    /* atomic */ synchronized int sum() { // accepted
        int sum = 0;
        for (var each : counts.entrySet()) {
            sum += each.getKey().isEmpty() ? 0 : each.getValue();
        }
        return sum + counts.entrySet().stream().filter(each -> each.getValue() > 9).mapToInt(each -> each.getValue()).sum();
    }

    /* atomic */ synchronized void clear() { // accepted
        counts.entrySet().forEach(each -> each.setValue(0));
    }
}

class EntryKept {
    private final java.util.Map<String, Integer> counts = new java.util.TreeMap<>();
    private java.util.Map.Entry<String, Integer> last;

    synchronized void keep() {
        counts.entrySet().forEach(each -> last = each);
    }

    void change() {
        last.setValue(9);
    }

    /* atomic */ synchronized int twice(String name) { // refused: an entry that got out changes the map
        return counts.get(name) + counts.get(name);
    }
}

class EntryGiven {
    private final java.util.Map<String, Integer> counts = new java.util.TreeMap<>();
    private final java.util.List<Object> all;

    EntryGiven(java.util.List<Object> all) {
        this.all = all;
    }

    synchronized void give() {
        counts.entrySet().stream().forEach(all::add);
    }

    /* atomic */ synchronized int twice(String name) { // refused: an entry that got out changes the map
        return counts.get(name) + counts.get(name);
    }
}

record Written(int[] parts) {
    static volatile int calls;

    public int[] parts() {
        calls++;
        return parts;
    }

    /* atomic */ static int sum(Written written) { // refused: this accessor was written, and has steps
        return written.parts().length + written.parts().length;
    }
}
