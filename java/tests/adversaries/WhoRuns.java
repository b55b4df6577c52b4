// Who runs what, in which order, and on whose object.
import java.util.*;
import java.util.concurrent.*;
import java.util.concurrent.atomic.*;
import java.util.concurrent.locks.*;
import java.util.function.*;

class FieldRunnable {
    @GuardedBy("this") private int v;
    private final Runnable step = () -> { synchronized (this) { v++; } };
    private final Runnable twice = this::both;
    private synchronized void one() { v++; }
    private void both() { one(); one(); }
    /* atomic */ void f() { step.run(); step.run(); } // refused
    /* atomic */ void g() { twice.run(); } // refused
    /* atomic */ void h() { ((Runnable) this::both).run(); } // refused
    /* atomic */ void i() { Runnable r = this::one; r.run(); r.run(); } // refused
    /* atomic */ void j() { for (Runnable r : List.<Runnable>of(this::one, this::one)) { r.run(); } } // refused
    /* atomic */ void k() { run(this::one); } // refused
    private static void run(Runnable r) { r.run(); r.run(); }
    /* atomic */ void l() { List.<Runnable>of(this::one, this::one).forEach(Runnable::run); } // refused
    /* atomic */ void m() { new Object() { void go() { one(); one(); } }.go(); } // refused
    /* atomic */ void n() { class Go { Go() { one(); one(); } } new Go(); } // refused
    /* atomic */ void o() { new Go2(this); } // refused
    static class Go2 { Go2(FieldRunnable a) { this(a, 1); a.one(); } Go2(FieldRunnable a, int b) { a.one(); } }
    /* atomic */ void p() { new Go3(this); } // refused
    static class Go3 { static int zero(FieldRunnable a) { a.one(); return 0; } Go3(FieldRunnable a) { this(zero(a), zero(a)); } Go3(int a, int b) { } }
    /* atomic */ void q() { Optional.of(1).ifPresent(x -> { one(); one(); }); } // refused
    /* atomic */ void r() { Optional.empty().ifPresentOrElse(x -> { }, this::both); } // refused
    /* atomic */ int s() { return Optional.of(1).map(x -> { both(); return x; }).get(); } // refused
    /* atomic */ void t(Map<String, Integer> m) { m.computeIfAbsent("a", x -> { both(); return 1; }); } // refused
    /* atomic */ void u(Map<String, Integer> m) { m.replaceAll((k, x) -> { one(); return 1; }); } // refused
    /* atomic */ void w(List<Integer> m) { m.removeIf(x -> { one(); return true; }); } // refused
    /* atomic */ void x(int[] m) { Arrays.setAll(m, k -> { one(); return k; }); } // refused
    /* atomic */ Object y() { return Objects.requireNonNullElseGet(null, () -> { both(); return 1; }); } // refused
    /* atomic */ Object z() { return ThreadLocal.withInitial(() -> { both(); return 1; }).get(); } // refused
    /* atomic */ Object aa() throws Exception { return CompletableFuture.supplyAsync(() -> { both(); return 1; }).get(); } // refused
    /* atomic */ Object ab(CompletableFuture<Integer> a) { return a.thenApply(x -> { both(); return 1; }); } // refused
    /* atomic */ void ac(List<Integer> m) { m.iterator().forEachRemaining(x -> one()); } // refused
    /* atomic */ void ad(List<Integer> m) { m.stream().peek(x -> one()).count(); } // refused
    /* atomic */ boolean ae(List<Integer> m) { return m.stream().anyMatch(x -> { one(); return false; }); } // refused
    /* atomic */ Object af(Comparator<String> m) { return m.thenComparing((a, b) -> { both(); return 1; }).compare("a", "b"); } // refused
    /* atomic */ void ag() { Function<Integer, Integer> a = x -> { one(); return x; }; a.andThen(a).apply(1); } // refused
    /* atomic */ void ah() { Supplier<Runnable> a = () -> this::both; a.get().run(); } // refused
    /* atomic */ void ai() { new Thread(this::both).run(); } // refused
    /* atomic */ void aj() { java.util.stream.IntStream.range(0, 2).forEach(k -> one()); } // refused
    /* atomic */ void ak() { Collections.nCopies(2, 1).forEach(k -> one()); } // refused
    /* atomic */ String am() { return String.format("%s", new Object() { public String toString() { both(); return ""; } }); } // refused
    /* atomic */ void an() { UnaryOperator<Integer> u = x -> { one(); return x; }; new AtomicReference<>(1).updateAndGet(u); } // refused
    /* atomic */ void ap() { Iterator<Integer> i = new Iterator<>() { public boolean hasNext() { one(); return false; } public Integer next() { return 1; } }; while (i.hasNext()) { i.next(); } } // refused
}

interface Twice {
    void one();
    default void both() { one(); one(); }
    static void go(Twice t) { t.one(); t.one(); }
    private void hidden() { one(); one(); }
    default void open() { hidden(); }
}

class DoesTwice implements Twice {
    @GuardedBy("this") private int v;
    public synchronized void one() { v++; }
    /* atomic */ void f() { both(); } // refused
    /* atomic */ void g() { Twice.super.both(); } // refused
    /* atomic */ void h() { Twice.go(this); } // refused
    /* atomic */ void i() { open(); } // refused
    /* atomic */ @Override public void open() { Twice.super.open(); } // refused
}

interface HoldsIt {
    @Holding("this") void need(); // refused
    default void give() { need(); } // refused
}

class Held2 implements HoldsIt {
    @GuardedBy("this") private int v;
    @Holding("this") public void need() { v++; v++; }
    /* atomic */ void f() { need(); } // refused
    /* atomic */ void g() { HoldsIt a = this; a.need(); } // refused
    /* atomic */ void h() { give(); } // refused
    /* atomic */ synchronized void i() { need(); } // accepted
    /* atomic */ void j(Held2 a) { synchronized (this) { a.need(); } } // refused
}

class HiddenField {
    static class Above { protected int v; synchronized void up() { v++; } }
    static class Below extends Above {
        @GuardedBy("this") int v;
        /* atomic */ void f() { super.v = 1; super.v = 2; } // refused
        /* atomic */ void g() { ((Above) this).v = 1; ((Above) this).v = 2; } // refused
        /* atomic */ synchronized void h() { v = 1; v = 2; } // accepted
        /* atomic */ synchronized void i() { super.v = 1; super.v = 2; } // refused
    }
}

class StaticHidden {
    static volatile int v;
    static void f() { v = 1; }
    static class Below extends StaticHidden {
        static void f() { v = 1; v = 2; }
        /* atomic */ static void g() { f(); } // refused
        /* atomic */ static void h() { StaticHidden.f(); } // accepted
    }
}

class StaticNodes {
    private static class Node { int v; Node next; }
    private static final Node HEAD = new Node();
    private static Node last = HEAD;
    /* atomic */ synchronized void f() { HEAD.v++; HEAD.v++; } // refused
    /* atomic */ synchronized void g() { last.v++; last = last.next; } // refused
}

class NodeByInterface {
    private static class Node implements Map.Entry<Integer, Integer> {
        int v;
        public Integer getKey() { return 1; }
        public Integer getValue() { return v; }
        public Integer setValue(Integer w) { return v = w; }
    }
    @GuardedBy("this") private final Node head = new Node();
    synchronized Map.Entry<Integer, Integer> get() { return head; }
    /* atomic */ synchronized void f() { head.v++; head.v++; } // refused
}

class NodeByStream {
    private static class Node { int v; @Override public String toString() { return "" + v++; } }
    @GuardedBy("this") private final List<Node> all = new ArrayList<>();
    synchronized List<?> get() { return new ArrayList<>(all); }
    synchronized void add() { all.add(new Node()); }
    /* atomic */ synchronized void f() { for (Node n : all) { n.v++; n.v++; } } // refused
}

class NodeThrown {
    private static class Node extends RuntimeException { int v; @Override public String getMessage() { return "" + v++; } }
    @GuardedBy("this") private Node head = new Node();
    synchronized void out() { throw head; }
    /* atomic */ synchronized void f() { head.v++; head.v++; } // refused
}

class NodeIsTask {
    private static class Node implements Runnable { int v; public void run() { v++; } }
    @GuardedBy("this") private final Node head = new Node();
    void start() { new Thread(head).start(); }
    /* atomic */ synchronized void f() { head.v++; head.v++; } // refused
}

class NodeTask2 {
    private class Node { int v; void run() { v++; } } // refused
    @GuardedBy("this") private final Node head = new Node();
    Runnable start() { return head::run; } // refused
    Runnable start2() { return () -> head.run(); } // refused
    /* atomic */ synchronized void f() { head.v++; head.v++; }
}

class InitialiserOrder {
    static volatile int v;
    static class First { static int a = v = 1; static int b = v = 2; static void f() { } }
    /* atomic */ static void f() { First.f(); } // refused
    /* atomic */ static int g() { return Second.A.ordinal(); } // refused
    enum Second { A, B; Second() { v = v + 1; } }
    static class Third { int a = v = 1; { v = 2; } }
    /* atomic */ static Object h() { return new Third(); } // refused
    static class Fourth extends Third { }
    /* atomic */ static Object i() { return new Fourth(); } // refused
    /* atomic */ static Object j() { return new Fourth() { }; } // refused
    /* atomic */ static Object k() { return (Supplier<Object>) Third::new; } // accepted
    /* atomic */ static Object l() { Supplier<Object> s = Third::new; return s.get(); } // refused
    record Fifth(int a) { Fifth { v = 1; v = 2; } }
    /* atomic */ static Object m() { return new Fifth(1); } // refused
    record Sixth(int a) { static int b = v = 1; Sixth { v = 3; } }
    /* atomic */ static Object n() { return new Sixth(1); } // refused
    static class Seventh { Seventh() { init(); } void init() { } }
    static class Eighth extends Seventh { @Override void init() { v = 1; v = 2; } }
    /* atomic */ static Object o() { return new Eighth(); } // refused
    interface Ninth { int A = v = 1; int B = v = 2; }
    /* atomic */ static int p() { return Ninth.A; } // refused
    static int[] q = {v = 1, v = 2};
    /* atomic */ static Object r() { return Second.valueOf("A"); } // refused
    /* atomic */ static Object s() { return Second.values(); } // refused
    /* atomic */ static Object t() { return EnumSet.allOf(Second.class); } // refused
}

class JumpsOut {
    @GuardedBy("this") private int v;
    /* atomic */ void f() { out: { synchronized (this) { v++; break out; } } synchronized (this) { v++; } } // refused
    /* atomic */ int g(int k) { int x = switch (k) { case 0: synchronized (this) { yield v; } default: yield 1; }; synchronized (this) { v = x; } return x; } // refused
    /* atomic */ int h() { try { synchronized (this) { return v; } } finally { synchronized (this) { v++; } } } // refused
    /* atomic */ void i() { while (true) { synchronized (this) { if (v > 3) { break; } } synchronized (this) { v++; } } } // refused
    /* atomic */ void j() { try { synchronized (this) { v++; throw new IllegalStateException(); } } catch (IllegalStateException e) { synchronized (this) { v--; } } } // refused
    /* atomic */ synchronized void k() { for (;;) { v++; if (v > 3) { return; } } } // accepted
    /* atomic */ void l() throws Exception { try (AutoCloseable a = () -> { synchronized (this) { v--; } }) { synchronized (this) { v++; } } } // refused
    /* atomic */ void m() { synchronized (this) { v++; } if (v(1) > 0) { throw new IllegalStateException("" + v(2)); } } // refused
    private synchronized int v(int k) { return v; }
    /* atomic */ void n() { assert v(1) > 0 && v(2) > 0 : v(3); } // refused
    /* atomic */ int o(int[] a) { return a[v(0)] + a[v(1)]; } // refused
    /* atomic */ int p(int[] a) { a[v(0)] += v(1); return 0; } // refused
    /* atomic */ boolean q() { return v(0) == v(1); } // refused
    /* atomic */ int r() { return v(0) > 0 ? v(1) : 0; } // refused
    /* atomic */ int s() { return -v(0) + ~v(1); } // refused
    /* atomic */ int[] t() { return new int[] {v(0), v(1)}; } // refused
    /* atomic */ int[][] u() { return new int[v(0)][v(1)]; } // refused
    /* atomic */ void w() { for (int k = v(0); k < v(1); k++) { } } // refused
    /* atomic */ Object x() { return (Object) v(0) instanceof Integer i && i > v(1); } // refused
    /* atomic */ int y(int... a) { return y(v(0), v(1)); } // refused
    /* atomic */ int z() { switch (v(0)) { case 1: return v(1); default: return 0; } } // refused
    /* atomic */ void aa() { synchronized (v(0) > 0 ? this : JumpsOut.class) { v(1); } } // refused
    /* atomic */ int ab() { int a; return (a = v(0)) + a + v(1); } // refused
    /* atomic */ void ac() { do { v(0); } while (v(1) > 0); } // refused
    /* atomic */ void ad() { for (int k = 0; v(k) > 0; v(k)) { continue; } } // refused
    /* atomic */ String ae() { return "%d".formatted(v(0)) + v(1); } // refused
    /* atomic */ long af() { return (long) v(0) << v(1); } // refused
    /* atomic */ void ag() { Integer boxed = v(0); boxed++; boxed += v(1); } // refused
}

@interface GuardedBy {
    String value();
}

@interface Holding {
    String value();
}
