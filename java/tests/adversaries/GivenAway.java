// Collections and arrays that get away within what a call gives, or under another name.
import java.util.*;
import java.util.concurrent.atomic.*;
import java.util.function.*;
import java.util.stream.*;
import java.nio.*;

class UnmodifiableView {
    @GuardedBy("this") private final List<Integer> all = new ArrayList<>();
    synchronized List<Integer> get() { return Collections.unmodifiableList(all); }
    /* atomic */ synchronized void f() { all.add(1); all.add(2); } // refused
}

class WrappedInOptional {
    @GuardedBy("this") private final List<Integer> all = new ArrayList<>();
    synchronized Optional<List<Integer>> get() { return Optional.of(all); }
    /* atomic */ synchronized void f() { all.add(1); all.add(2); } // refused
}

class WrappedInRecord {
    record Pair(List<Integer> one, int two) { }
    @GuardedBy("this") private final List<Integer> all = new ArrayList<>();
    synchronized Pair get() { return new Pair(all, 1); }
    /* atomic */ synchronized void f() { all.add(1); all.add(2); } // refused
}

class WrappedInList {
    @GuardedBy("this") private final List<Integer> all = new ArrayList<>();
    synchronized List<List<Integer>> get() { return List.of(all); }
    /* atomic */ synchronized void f() { all.add(1); all.add(2); } // refused
}

class WrappedInVarargs {
    @GuardedBy("this") private final List<Integer> all = new ArrayList<>();
    @SafeVarargs static <T> T[] array(T... given) { return given; }
    synchronized List<Integer>[] get() { return array(all); }
    /* atomic */ synchronized void f() { all.add(1); all.add(2); } // refused
}

class WrappedInArray {
    @GuardedBy("this") private final List<Integer> all = new ArrayList<>();
    synchronized Object[] get() { return new Object[] {all}; }
    /* atomic */ synchronized void f() { all.add(1); all.add(2); } // refused
}

class WrappedInLambda {
    @GuardedBy("this") private final List<Integer> all = new ArrayList<>();
    synchronized Supplier<List<Integer>> get() { return () -> all; }
    /* atomic */ synchronized void f() { all.add(1); all.add(2); } // refused
}

class WrappedInReference {
    @GuardedBy("this") private final List<Integer> all = new ArrayList<>();
    synchronized Consumer<Integer> get() { return all::add; }
    /* atomic */ synchronized void f() { all.add(1); all.add(2); } // refused
}

class WrappedInReferenceAtomic {
    @GuardedBy("this") private final AtomicReference<List<Integer>> last = new AtomicReference<>();
    @GuardedBy("this") private final List<Integer> all = new ArrayList<>();
    synchronized void get() { last.set(all); }
    synchronized List<Integer> last() { return last.get(); }
    /* atomic */ synchronized void f() { all.add(1); all.add(2); } // refused
}

class ByRequire {
    @GuardedBy("this") private final List<Integer> all = new ArrayList<>();
    synchronized List<Integer> get() { return Objects.requireNonNull(all); }
    /* atomic */ synchronized void f() { all.add(1); all.add(2); } // refused
}

class ByChoice {
    @GuardedBy("this") private final List<Integer> all = new ArrayList<>();
    synchronized List<Integer> get(boolean b) { return b ? List.of() : (all); }
    /* atomic */ synchronized void f() { all.add(1); all.add(2); } // refused
}

class BySwitch {
    @GuardedBy("this") private final List<Integer> all = new ArrayList<>();
    synchronized List<Integer> get(int k) { return switch (k) { case 0 -> List.of(); default -> { var x = all; yield x; } }; }
    /* atomic */ synchronized void f() { all.add(1); all.add(2); } // refused
}

class ByIdentity {
    @GuardedBy("this") private final List<Integer> all = new ArrayList<>();
    static <T> T same(T given) { return given; }
    synchronized List<Integer> get() { return same(all); }
    /* atomic */ synchronized void f() { all.add(1); all.add(2); } // refused
}

class ByAssignment {
    @GuardedBy("this") private List<Integer> all = new ArrayList<>();
    static List<Integer> seen;
    synchronized void get() { all = seen = new ArrayList<>(); }
    /* atomic */ synchronized void f() { all.add(1); all.add(2); } // refused
}

class ByThrow {
    static class Odd extends RuntimeException { final List<Integer> what; Odd(List<Integer> what) { this.what = what; } }
    @GuardedBy("this") private final List<Integer> all = new ArrayList<>();
    synchronized void get() { throw new Odd(all); }
    /* atomic */ synchronized void f() { all.add(1); all.add(2); } // refused
}

class ByPattern {
    @GuardedBy("this") private final Object all = new ArrayList<Integer>();
    static List<?> seen;
    synchronized void get() { if (all instanceof List<?> list) { seen = list; } }
    @SuppressWarnings("unchecked")
    /* atomic */ synchronized void f() { ((List<Integer>) all).add(1); ((List<Integer>) all).add(2); } // refused
}

class BySubList {
    @GuardedBy("this") private final List<Integer> all = new ArrayList<>();
    @GuardedBy("this") private List<Integer> part;
    synchronized void get() { part = all.subList(0, 1); }
    List<Integer> part() { synchronized (this) { return part; } }
    /* atomic */ synchronized void f() { all.add(1); all.add(2); } // refused
}

class ByEntry {
    @GuardedBy("this") private final TreeMap<Integer, Integer> all = new TreeMap<>();
    synchronized Map.Entry<Integer, Integer> get() { for (var each : all.entrySet()) { return each; } return null; }
    /* atomic */ synchronized int f() { int a = 0; for (int x : all.values()) { a += x; } for (int x : all.values()) { a -= x; } return a; } // refused
}

class ByValuesOutside {
    @GuardedBy("this") private final Map<Integer, Integer> all = new HashMap<>();
    synchronized void put(int k) { all.put(k, k); }
    /* atomic */ int f() { // refused
        Collection<Integer> values;
        synchronized (this) {
            values = all.values();
        }
        int a = 0;
        for (int x : values) {
            a += x;
        }
        return a;
    }
}

class ByStreamOutside {
    @GuardedBy("this") private final List<Integer> all = new ArrayList<>();
    synchronized void put(int k) { all.add(k); }
    /* atomic */ int f() { // refused
        IntStream numbers;
        synchronized (this) {
            numbers = all.stream().mapToInt(x -> x);
        }
        return numbers.sum();
    }
}

class ByArraysAsList {
    @GuardedBy("this") private final Integer[] all = new Integer[3];
    synchronized List<Integer> get() { return Arrays.asList(all); }
    /* atomic */ synchronized void f() { all[0] = 1; all[1] = 2; } // refused
}

class ByArraysStream {
    @GuardedBy("this") private final int[] all = new int[3];
    synchronized void put(int k) { all[k] = k; all[0] = k; }
    /* atomic */ int f() { // refused
        IntStream numbers;
        synchronized (this) {
            numbers = Arrays.stream(all);
        }
        return numbers.sum();
    }
}

class ByByteBuffer {
    @GuardedBy("this") private final byte[] all = new byte[3];
    synchronized ByteBuffer get() { return ByteBuffer.wrap(all); }
    /* atomic */ synchronized void f() { all[0] = 1; all[1] = 2; } // refused
}

class ByNestedList {
    @GuardedBy("this") private final Map<String, List<Integer>> all = new HashMap<>();
    synchronized List<Integer> get(String k) { return all.computeIfAbsent(k, x -> new ArrayList<>()); }
    /* atomic */ synchronized void f(String k) { all.get(k).add(1); all.get(k).add(2); } // refused
}

class ByLoopVariable {
    @GuardedBy("this") private final List<List<Integer>> all = new ArrayList<>();
    synchronized void put(List<Integer> given) { all.add(given); }
    /* atomic */ synchronized void f() { for (List<Integer> each : all) { each.add(1); } } // refused
}

class ByRecordAccessor {
    record Names(List<String> all) {
        Names {
            all = new ArrayList<>(all);
        }

        /* atomic */ synchronized void f() { // refused
            all.add("a");
            all.add("b");
        }
    }
}

class ByRecordArray {
    record Cells(int[] cells) {
        Cells() {
            this(new int[3]);
        }

        /* atomic */ synchronized void f() { // refused
            cells[0]++;
            cells[1]++;
        }
    }
}

class ByCollector {
    @GuardedBy("this") private final List<Integer> all = new ArrayList<>();
    synchronized List<Integer> get(Stream<Integer> s) { return s.collect(() -> all, List::add, List::addAll); }
    /* atomic */ synchronized void f() { all.add(1); all.add(2); } // refused
}

class ByReduce {
    @GuardedBy("this") private final List<Integer> all = new ArrayList<>();
    synchronized List<Integer> get() { return Optional.<List<Integer>>empty().orElse(all); }
    /* atomic */ synchronized void f() { all.add(1); all.add(2); } // refused
}

class ByMapDefault {
    @GuardedBy("this") private final List<Integer> all = new ArrayList<>();
    synchronized List<Integer> get(Map<String, List<Integer>> map) { return map.getOrDefault("a", all); }
    /* atomic */ synchronized void f() { all.add(1); all.add(2); } // refused
}

class ByInnerGetter {
    @GuardedBy("this") private final List<Integer> all = new ArrayList<>();
    class View { List<Integer> all() { return all; } }
    View view() { return new View(); }
    /* atomic */ synchronized void f() { all.add(1); all.add(2); } // refused
}

class ByLocalClass {
    @GuardedBy("this") private final List<Integer> all = new ArrayList<>();
    synchronized Iterable<Integer> get() {
        final var mine = all;
        class Local implements Iterable<Integer> { public Iterator<Integer> iterator() { return mine.iterator(); } }
        return new Local();
    }
    /* atomic */ synchronized void f() { all.add(1); all.add(2); } // refused
}

class ByVarargsMethod {
    @GuardedBy("this") private final List<Integer> all = new ArrayList<>();
    static List<?> seen;
    static void keep(List<?>... given) { seen = given[0]; }
    synchronized void get() { keep(all); }
    /* atomic */ synchronized void f() { all.add(1); all.add(2); } // refused
}

class ByStringJoin {
    @GuardedBy("this") private final StringBuilder text = new StringBuilder();
    CharSequence get() { synchronized (this) { return text; } }
    /* atomic */ synchronized void f() { text.append(1); text.append(2); } // refused
}

class ByFluent {
    @GuardedBy("this") private final StringBuilder text = new StringBuilder();
    Appendable get() { synchronized (this) { return text.append(1); } }
    /* atomic */ synchronized void f() { text.append(1); text.append(2); } // refused
}

class ByReversed {
    @GuardedBy("this") private final StringBuilder text = new StringBuilder();
    StringBuilder get() { synchronized (this) { return text.reverse().append("a"); } }
    /* atomic */ synchronized void f() { text.append(1); text.append(2); } // refused
}

class ByListIterator {
    @GuardedBy("this") private final List<Integer> all = new LinkedList<>();
    @GuardedBy("this") private ListIterator<Integer> at = all.listIterator();
    ListIterator<Integer> get() { synchronized (this) { return at; } }
    /* atomic */ synchronized void f() { all.add(1); all.add(2); } // refused
}

@interface GuardedBy {
    String value();
}

class ByConstructorOfLibrary {
    @GuardedBy("this") private final List<Integer> all = new ArrayList<>();
    synchronized Map.Entry<Integer, List<Integer>> get() { return new AbstractMap.SimpleEntry<>(1, all); }
    /* atomic */ synchronized void f() { all.add(1); all.add(2); } // refused
}

class OpensFile {
    /* atomic */ void f(String name) throws java.io.IOException { new java.io.FileOutputStream(name); new java.io.FileOutputStream(name); } // refused
}
