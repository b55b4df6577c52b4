// Ways by which a library comes back into code at hand.
import java.util.*;
import java.util.concurrent.*;
import java.util.concurrent.locks.*;
import java.util.function.*;
import java.util.stream.*;
import java.io.*;

class Letters implements CharSequence {
    @GuardedBy("this") int seen;
    public synchronized int length() { seen++; return 3; }
    public synchronized char charAt(int k) { seen++; return 'a'; }
    public synchronized CharSequence subSequence(int a, int b) { seen++; return this; }
    public synchronized String toString() { seen++; return "aaa"; }

    /* atomic */ void f(StringBuilder text) { text.append(this); text.append(this, 0, 2); } // refused
    /* atomic */ boolean g(String text) { return text.contentEquals(this); } // refused
    /* atomic */ boolean h(String text) { return text.contains(this) && text.contains(this); } // refused
    /* atomic */ String i(String text) { return String.join(this, "a", this); } // refused
    /* atomic */ int j() { return CharSequence.compare(this, "abc"); } // refused
    /* atomic */ boolean k(java.util.regex.Pattern pattern) { return pattern.matcher(this).matches(); } // refused
    /* atomic */ long l() { return chars().count(); } // refused
    /* atomic */ void m(Writer out) throws IOException { out.append(this); out.append(this); } // refused
    /* atomic */ String n() { return "a" + this + 'b' + this; } // refused
    /* atomic */ String o() { return String.valueOf((Object) this) + Objects.toString(this); } // refused
    /* atomic */ String p() { return "%s %s".formatted(this, this); } // refused
    /* atomic */ String q() { return new StringJoiner(",").add(this).add(this).toString(); } // refused
    /* atomic */ String r() { return List.of(this, this).toString(); } // refused
    /* atomic */ String t() { return Stream.of(this, this).map(Object::toString).collect(Collectors.joining()); } // refused
    /* atomic */ String u() { return Optional.of(this).map(x -> x.toString() + x).get(); } // refused
    /* atomic */ String v() { String text = ""; text += this; text += this; return text; } // refused
    /* atomic */ boolean w() { return isEmpty() || isEmpty(); } // refused
    /* atomic */ boolean x(StringBuilder text) { text.insert(0, (CharSequence) this); text.replace(0, 1, toString()); return true; } // refused
}

class Numbers extends AbstractList<Integer> {
    @GuardedBy("this") int seen;
    @Override public synchronized int size() { seen++; return 3; }
    @Override public synchronized Integer get(int k) { seen++; return 1; }

    /* atomic */ List<Integer> f() { return new ArrayList<>(this); } // refused
    /* atomic */ List<Integer> g() { return List.copyOf(this); } // refused
    /* atomic */ boolean h(List<Integer> to) { return to.addAll(this); } // refused
    /* atomic */ boolean i(List<Integer> to) { return to.equals(this); } // refused
    /* atomic */ int j() { return Collections.max(this); } // refused
    /* atomic */ boolean k() { return isEmpty() || isEmpty(); } // refused
    /* atomic */ boolean l() { return contains(1) && contains(2); } // refused
    /* atomic */ int m() { return hashCode(); } // refused
    /* atomic */ int n() { return stream().mapToInt(x -> x).sum(); } // refused
    /* atomic */ int o() { int a = 0; for (int x : this) { a += x; } return a; } // refused
    /* atomic */ void p(List<Integer> to) { forEach(to::add); } // refused
    /* atomic */ Object[] q() { return toArray(); } // refused
    /* atomic */ boolean r(Set<Integer> to) { return to.removeAll(this); } // refused
    /* atomic */ String s() { return toString(); } // refused
    /* atomic */ Set<Integer> t() { return new TreeSet<>(this); } // refused
    /* atomic */ boolean u() { return Collections.disjoint(this, List.of(1)); } // refused
    /* atomic */ int v() { return Collections.frequency(this, 1); } // refused
    /* atomic */ boolean w() { return remove((Object) 1); } // refused
}

class Feeds extends InputStream implements Supplier<Integer>, Comparator<String>, Comparable<Feeds>, BiConsumer<String, Integer>, Callable<Integer>, Runnable {
    @GuardedBy("this") int seen;
    @Override public synchronized int read() { seen++; return -1; }
    @Override public synchronized Integer get() { return seen++; }
    @Override public synchronized int compare(String a, String b) { return seen++; }
    @Override public synchronized int compareTo(Feeds other) { return seen++; }
    @Override public synchronized void accept(String a, Integer b) { seen++; }
    @Override public synchronized Integer call() { return seen++; }
    @Override public synchronized void run() { seen++; }

    /* atomic */ int f() throws IOException { return new BufferedInputStream(this).read(); } // refused
    /* atomic */ byte[] g() throws IOException { return readAllBytes(); } // refused
    /* atomic */ int h(byte[] to) throws IOException { return read(to); } // refused
    /* atomic */ int i(Optional<Integer> given) { return given.orElseGet(this) + given.orElseGet(this); } // refused
    /* atomic */ void j(List<String> all) { all.sort(this); } // refused
    /* atomic */ void k(List<Feeds> all) { Collections.sort(all); } // refused
    /* atomic */ void l(Map<String, Integer> all) { all.forEach(this); } // refused
    /* atomic */ int m() throws Exception { return Executors.callable(this, 1).call() + call(); } // refused
    /* atomic */ void n() { Thread one = new Thread(this); one.run(); one.run(); } // refused
    /* atomic */ int o() { return Stream.generate(this).limit(3).mapToInt(x -> x).sum(); } // refused
    /* atomic */ int q(String[] all) { return Arrays.binarySearch(all, "a", this); } // refused
    /* atomic */ Object s() { return Collections.min(List.of("a", "b", "c"), this); } // refused
    /* atomic */ Object t(PriorityQueue<Feeds> all) { all.offer(this); return all.poll(); } // refused
    /* atomic */ int u() { return new Scanner(this).hasNext() ? 1 : 0; } // refused
    /* atomic */ Object v() { return Stream.of("a", "b", "c").sorted(this).collect(Collectors.toList()); } // refused
    /* atomic */ long w(OutputStream out) throws IOException { return transferTo(out); } // refused
    /* atomic */ Object x() { return reversed().compare("a", "b") + reversed().compare("a", "b"); } // refused
    /* atomic */ Object y() { return this.thenComparing(Comparator.naturalOrder()).compare("a", "b") + compare("a", "c"); } // refused
    /* atomic */ void z(ExecutorService pool) throws Exception { pool.invokeAll(List.of(this, this)); } // refused
}

class Loops implements Iterable<Integer> {
    @GuardedBy("this") int seen;
    public synchronized Iterator<Integer> iterator() { seen++; return List.of(seen).iterator(); }
    /* atomic */ void f() { forEach(x -> { }); forEach(x -> { }); } // refused
    /* atomic */ String g(List<Loops> all) { StringBuilder t = new StringBuilder(); for (Loops l : all) { for (int x : l) { t.append(x); } } return t.toString(); } // refused
    /* atomic */ long h() { return StreamSupport.stream(spliterator(), false).count() + StreamSupport.stream(spliterator(), false).count(); } // refused
    /* atomic */ String i(List<String> l) { return String.join(",", l) + iterator().next() + iterator().next(); } // refused
}

class Keys {
    @GuardedBy("this") private int seen;
    @Override public synchronized int hashCode() { return seen++; }
    @Override public synchronized boolean equals(Object other) { seen++; return other == this; }
    @Override public synchronized String toString() { return "" + seen++; }

    /* atomic */ void f(Map<Keys, Integer> to) { to.put(this, 1); } // refused
    /* atomic */ boolean g(List<Keys> all) { return all.contains(this); } // refused
    /* atomic */ int h() { return Objects.hash(this, this); } // refused
    /* atomic */ boolean i(Keys other) { return Objects.equals(this, other) || Objects.equals(other, this); } // refused
    /* atomic */ Set<Keys> j(List<Keys> all) { return new HashSet<>(all); } // refused
    /* atomic */ Object k(List<Keys> all) { return all.stream().distinct().count(); } // refused
    /* atomic */ boolean l(Keys[] all, Keys[] others) { return Arrays.equals(all, others); } // refused
    /* atomic */ Object m(List<Keys> all) { return all.stream().collect(Collectors.groupingBy(x -> x)); } // refused
    /* atomic */ boolean n(Optional<Keys> all) { return all.equals(Optional.of(this)) || all.equals(Optional.of(this)); } // refused
    /* atomic */ boolean o(List<Keys> all) { return all.remove(this); } // refused
    /* atomic */ boolean p(List<Keys> all, List<Keys> b) { return all.equals(b); } // refused
    /* atomic */ int q(List<Keys> all) { return all.hashCode(); } // refused
    /* atomic */ String r(List<Keys> all) { return "" + all; } // refused
    /* atomic */ String s(Map<String, Keys> all) { return all.toString(); } // refused
    /* atomic */ Map<Keys, Keys> t(Keys a) { return Map.of(this, a, a, this); } // refused
    /* atomic */ boolean u(Map.Entry<Keys, Keys> a) { return a.equals(a); } // refused
    /* atomic */ boolean v(Point a, Point b) { return a.equals(b); } // refused
    /* atomic */ int w(Point a) { return a.hashCode(); } // refused
    /* atomic */ String x(Point a) { return a + ""; } // refused
    record Point(Keys one, Keys two) { }
}

@interface GuardedBy {
    String value();
}

class OwnLock extends java.util.concurrent.locks.ReentrantLock {
    @GuardedBy("this") int seen;
    @Override public void lock() { synchronized (OwnLock.class) { super.lock(); } synchronized (OwnLock.class) { } }
    /* atomic */ static void f(Lock l) { l.lock(); } // refused
}

class OwnMap extends ConcurrentHashMap<String, String> {
    volatile int seen;
    @Override public String get(Object k) { seen = 1; seen = 2; return super.get(k); }
    /* atomic */ static String f(ConcurrentMap<String, String> map) { return map.get("a"); } // refused
}
