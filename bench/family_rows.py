"""Worked rows of classes that extend each other."""
from __future__ import annotations

from row_parts import EMPTY_MAIN, Row, ScheduleRow, accepted, broken, lines, refused


def overriding_promises() -> list[Row]:
    """Overriding methods and what is promised above them."""
    put = (
        "class A { int v guarded_by this; atomic void put() { synchronized (this) { this.v = 1; } } } "
        "class B extends A { atomic void put() { %s} } "
    )
    return [
        broken(put % "this.v = 2; " + EMPTY_MAIN, "A.put: declared atomic, found error"),
        accepted(put % "" + EMPTY_MAIN, "A.put this ? mover : atomic", "B.put const", "Main.main const"),
        refused(
            "class A { void f() { } } class B extends A { atomic void f() { } } " + EMPTY_MAIN, "1:58: bad override"
        ),
    ]


def headings() -> list[Row]:
    """Classes that may not extend what they extend."""
    fields = "\n".join(f"int f{k};" for k in range(32))
    return [
        refused("class A extends B { } class B extends A { } " + EMPTY_MAIN, "1:7: circle"),
        refused("class A extends A { } " + EMPTY_MAIN, "1:7: circle"),
        refused("class B extends A { } class A extends A { } " + EMPTY_MAIN, "1:7: circle"),
        refused("class A extends B { } " + EMPTY_MAIN, "1:17: unknown class"),
        refused("class A { int f; } class B extends A { boolean f; } " + EMPTY_MAIN, "1:48: declared twice"),
        refused(
            "class A { final int n; A(int n) { this.n = n; } } class B extends A { } " + EMPTY_MAIN,
            "1:57: bad constructor",
        ),
        refused(
            "class A { final int n; A(int n) { this.n = n; } } "
            "class B extends A { final int m; B(int m, int n) { this.m = m; this.n = n; } } " + EMPTY_MAIN,
            "1:84: bad constructor",
        ),
        refused(
            "class A implements Runnable { void run() { } } class B extends A { int run() { return 1; } } "
            + EMPTY_MAIN,
            "1:72: bad override",
        ),
        refused("class B extends A { } class A implements Runnable { } " + EMPTY_MAIN, "1:7: no run"),
        refused(f"class A {{\n{fields}\n}} class B extends A {{ int g; }} " + EMPTY_MAIN, "34:27: too many"),
        refused(
            "class A { final int n; A(int n) { this.n = n; } } "
            "class Main extends A { Main(int n) { this.n = n; } void main() { } }",
            "1:1: no main",
        ),
    ]


def overriding_signatures() -> list[Row]:
    """Overriding methods with other parameters, results and required locks."""
    locked = (
        "class A { final A next; A(A next) { this.next = next; } %s } "
        "class B extends A { B(A next) { this.next = next; } %s } "
    )
    return [
        refused(
            "class A { void f(int a) { } } class B extends A { void f(boolean a) { } } " + EMPTY_MAIN,
            "1:56: bad override",
        ),
        refused(
            "class A { void f(int a) { } } class B extends A { void f(final int a) { } } " + EMPTY_MAIN,
            "1:56: bad override",
        ),
        refused(
            "class A { int f() { return 1; } } class B extends A { void f() { } } " + EMPTY_MAIN, "1:60: bad override"
        ),
        refused(
            locked % ("void f() requires this { }", "void f() requires this.next { }") + EMPTY_MAIN,
            "1:143: bad override",
        ),
        accepted(
            locked
            % ("void f(final A a) requires a.next, this { }", "void f(final A b) requires this, b.next, this { }")
            + EMPTY_MAIN,
            "A.f const",
            "B.f const",
            "Main.main const",
        ),
    ]


def inherited_members() -> list[Row]:
    """Members that a class has from above."""
    get = "class A { %s } class B extends A { } class C extends B { %s } "
    run = "class A implements Runnable { void run() { } } class B extends A { } "
    return [
        accepted(
            get % ("int v; int get() { return this.v; }", "int both() { return this.v + this.get(); }") + EMPTY_MAIN,
            "A.get atomic",
            "C.both cmpd",
            "Main.main const",
        ),
        accepted(
            get % ("void f() { }", "int v; void f() { this.v = 1; this.v = 2; }") + EMPTY_MAIN,
            "A.f cmpd",
            "C.f cmpd",
            "Main.main const",
        ),
        accepted(
            run + "class Main { void main() { new Thread(new B()).start(); } }", "A.run const", "Main.main atomic"
        ),
        accepted("class A { void main() { } } class Main extends A { }", "A.main const"),
        refused("class A { } class B extends A { } class Main { void main() { B b = new A(); } }", "1:64: no rule"),
    ]


def printed_headings() -> list[Row]:
    """Classes that extend others, in the canonical layout."""
    return [
        (
            "print",
            "class B extends A implements Runnable{}public class A{}",
            0,
            lines("class B extends A implements Runnable {", "}", "class A {", "}"),
        ),
        (
            "print",
            "class A extends B { } class B extends A { }",
            0,
            lines("class A extends B {", "}", "class B extends A {", "}"),
        ),
        refused("class A extends { }", "1:17: unexpected", "print"),
        refused("class A extends B, C { }", "1:18: unexpected", "print"),
        refused("class A implements Runnable extends B { }", "1:29: unexpected", "print"),
    ]


def families() -> list[Row]:
    """Classes that extend each other."""
    return [
        *overriding_promises(),
        *headings(),
        *overriding_signatures(),
        *inherited_members(),
        *printed_headings(),
    ]


def family_schedules() -> list[ScheduleRow]:
    """The receiver's class chooses the method."""
    get = (
        "class A { int get() { return 1; } } class B extends A { int get() { return 2; } } "
        "class Main { void main() { A a = new B(); System.out.println(a.get()); } }"
    )
    run = (
        "class A implements Runnable { void run() { } } "
        "class B extends A { public void run() { System.out.println(2); } } "
        "class C extends B { } class Main { void main() { A a = new C(); new Thread(a).start(); } }"
    )
    named = (
        "class A { final int x; int y; A(int x) { this.x = x; } } "
        "class B extends A { final int z; boolean w; B(int x, int z) { this.x = x; this.z = z; } } "
        "class Main { void main() { new B(3, 4); } }"
    )
    return [
        ("run", get, "0*9", 0, lines("print 2", "object 0:0 Main", "object 0:1 B", "thread 0 done")),
        (
            "run",
            run,
            "0*6 1*4",
            0,
            lines("print 2", "object 0:0 Main", "object 0:1 C", "thread 0 done", "thread 1 done"),
        ),
        ("run", named, "0*6", 0, lines("object 0:0 Main", "object 0:1 B x=3 y=0 z=4 w=false", "thread 0 done")),
    ]
