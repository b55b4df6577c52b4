#!/usr/bin/env python3
"""Gives atomic-java sources that grow in one way each, and tells how its time grows with them.

A line for each size says the bytes of the sources, the seconds of processors without those of an empty class (those of
atomic_why too), and how often the time of the size before it took. Where a size is twice the one before, a time that
grows with the input takes about twice as long, and one that grows with its square four times. A run that takes more
seconds than --seconds is stopped.

The families: classes in a folder; methods, fields and locks of one class; chains of private methods, with a lock at
their beginning or their end; classes in a line, each of which calls the method above it; classes with one method's
name; a class in one line; long regions; loops in loops that a branch leaves; one object under many names; stages of a
stream; chained calls; functions in functions; helpers that are given functions; nested classes; static fields; classes
whose static methods call each other in a circle; methods that call each other in circles; callers of one method;
classes of nodes that lead to each other; cases of a switch; branches in a row; terms of a sum; overloads; tasks;
anonymous classes; classes that override one method; returns; tries; regions; locals that each lead on from the one
before; elements of an array; constants with bodies; initialisers; streams that library objects keep; lists that methods
give out.
"""
import argparse
import resource
import signal
import subprocess
import sys
import tempfile
from collections.abc import Callable
from pathlib import Path
from typing import Optional

from java_sources import PROGRAM

Family = Callable[[int], str]
LIST = "java.util.List<Integer>"
LOCK = "java.util.concurrent.locks.ReentrantLock"


def one(body: str) -> str:
    """One class."""
    head = f"private int v; private A next; private final {LIST} all = new java.util.ArrayList<>();"
    return f"class A {{ {head}\n{body}}}\n"


def rows(count: int, row: Callable[[int], str]) -> str:
    """So many lines."""
    return "".join(row(k) + "\n" for k in range(count))


def folder(n: int) -> str:
    return rows(
        n,
        lambda k: f"class C{k} {{ private int v; private C{(k + 1) % n} next;\n"
        "public synchronized int get() { return v; }\n"
        "public synchronized void add(int d) { v += d; if (next != null) next.get(); }\n"
        "public void both(int d) { if (get() > d) add(-d); } }",
    )


def methods(n: int) -> str:
    return one(rows(n, lambda k: f"public synchronized int m{k}(int x) {{ v += x; return v; }}"))


def fields(n: int) -> str:
    return one(
        rows(n, lambda k: f"private int v{k};")
        + rows(n, lambda k: f"public synchronized int m{k}() {{ return v{k}++ + v{(k + 1) % n}; }}")
    )


def locks(n: int) -> str:
    return one(
        rows(n, lambda k: f"private final Object l{k} = new Object(); private int v{k};")
        + rows(n, lambda k: f"public void m{k}() {{ synchronized (l{k}) {{ v{k}++; }} }}")
    )


def chain(n: int) -> str:
    return one(
        "public synchronized void m() { p0(); }\n"
        + rows(n, lambda k: f"private void p{k}() {{ p{k + 1}(); }}")
        + f"private void p{n}() {{ v++; }}\n"
    )


def chain_up(n: int) -> str:
    return one(
        "private void p0() { synchronized (this) { v++; } }\n"
        + rows(n, lambda k: f"private void p{k + 1}() {{ p{k}(); }}")
        + f"public void m() {{ p{n}(); }}\n"
    )


def heirs(n: int) -> str:
    return "class B { int v; synchronized int m() { return v++; } }\n" + rows(
        n,
        lambda k: f"class B{k} extends B{k - 1 if k else ''} {{ private int w{k}; "
        f"synchronized int m() {{ w{k}++; return super.m(); }} }}",
    )


def named(n: int) -> str:
    return rows(
        n,
        lambda k: f"class C{k} {{ private int v; public synchronized int get(C{(k + 1) % n} c) {{ return v++; }}\n"
        f"public synchronized int run(C{(k + 1) % n} c, {LIST} all) {{ return c == null ? 0 : c.get(null); }} }}",
    )


def line(n: int) -> str:
    all_methods = "".join(f"public synchronized void m{k}() {{ v++; v--; }} " for k in range(n))
    return "class A { private int v; " + all_methods + "}\n"


def region(n: int) -> str:
    return one(
        f"private final {LOCK} lock = new {LOCK}(); public void m() {{ lock.lock();\n"
        + rows(n, lambda k: f"v += {k};")
        + "lock.unlock(); }\n"
    )


def loops(n: int) -> str:
    return one(
        "public synchronized void m() {\n"
        + rows(n, lambda k: f"for (A a{k} = next; a{k} != null; a{k} = a{k}.next) {{ A b{k} = a{k}.next;")
        + rows(n, lambda k: f"if (v == {k}) {{ b{n - 1 - k}.v++; return; }} }}")
        + "}\n"
    )


def aliases(n: int) -> str:
    return one(
        "public synchronized void m() { A b0 = new A();\n"
        + "".join(f"A b{k} = new A(); " + f"b{k} = b{k - 1}; " * n + "\n" for k in range(1, 7))
        + "b6.v++; }\n"
    )


def stages(n: int) -> str:
    all_stages = rows(n, lambda k: f".map(e -> e + v + {k})")
    return one(f"public synchronized Object m() {{ return all.stream()\n{all_stages}.toList(); }}\n")


def builder(n: int) -> str:
    calls = rows(n, lambda k: f".append(v + {k})")
    return one(f"public synchronized String m() {{ return new StringBuilder()\n{calls}.toString(); }}\n")


def functions(n: int) -> str:
    return one(
        "private void run(Runnable r) { synchronized (this) { r.run(); } }\n"
        + rows(n, lambda k: f"public void m{k}() {{ run(() -> v += {k}); }}")
    )


def helpers(n: int) -> str:
    return one(
        "private void h0(Runnable r) { synchronized (this) { r.run(); } }\n"
        + rows(n, lambda k: f"private void h{k + 1}(Runnable r) {{ h{k}(() -> {{ r.run(); r.run(); }}); }}")
        + f"public void m() {{ h{n}(() -> v++); }}\n"
    )


def nested(n: int) -> str:
    return one(
        rows(
            n,
            lambda k: f"private static class N{k} {{ int v; N{k} next; }} private N{k} first{k};\n"
            f"public synchronized void m{k}() {{ N{k} b = new N{k}(); b.next = first{k}; first{k} = b; b.v++; }}",
        )
    )


def statics(n: int) -> str:
    return rows(
        n,
        lambda k: f"class C{k} {{ static int v; "
        f"static synchronized int m() {{ return v++ + C{(k + 1) % n}.v; }} }}",
    )


def reaching(n: int) -> str:
    return rows(
        n,
        lambda k: f"class C{k} {{ static int v; "
        f"static synchronized int m() {{ return v++ + C{(k + 1) % n}.m(); }} public int n() {{ return m(); }} }}",
    )


def mutual(n: int) -> str:
    return one(
        rows(
            n,
            lambda k: f"public synchronized int m{k}(int x) {{ {'v += x; ' * 20}"
            f"return x > {k} ? m{(k + 1) % n}(x) : m{(k * 7 + 3) % n}(v); }}",
        )
    )


def callers(n: int) -> str:
    return one(
        "private int h(int x) { v += x; return v; }\n"
        + rows(n, lambda k: f"public synchronized int m{k}(int x) {{ return h(x) + h({k}); }}")
    )


def linked(n: int) -> str:
    return one(
        rows(n, lambda k: f"private static class N{k} {{ int v; N{(k + 1) % n} next; }}")
        + "private N0 first;\n"
        + f"public N{n - 1} out() {{ return new N{n - 1}(); }}\n"
        + rows(n, lambda k: f"public synchronized int m{k}(N{k} x) {{ return x.next.v++; }}")
    )


def cases(n: int) -> str:
    return one(
        "public synchronized void m(int x) { switch (x) {\n"
        + rows(n, lambda k: f"case {k}: v += {k}; {'break;' if k % 2 else ''}")
        + "default: v = 0; } }\npublic synchronized int g(int x) { return switch (x) {\n"
        + rows(n, lambda k: f"case {k} -> v + {k};")
        + "default -> 0; }; }\n"
    )


def branches(n: int) -> str:
    return one(
        "public synchronized void m(int x) {\n"
        + rows(n, lambda k: f"if (x == {k}) {{ v += {k}; }} else")
        + "{ v = 0; } }\n"
    )


def sums(n: int) -> str:
    return one("public synchronized int m() { return v\n" + rows(n, lambda k: f"+ v * {k}") + "; }\n")


def overloads(n: int) -> str:
    return rows(n, lambda k: f"class T{k} {{ }}") + one(
        rows(n, lambda k: f"synchronized int m(T{k} x) {{ return v++; }}")
        + rows(n // 10, lambda k: f"public synchronized int n{k}() {{ return m(new T{k}()); }}")
    )


def lambdas(n: int) -> str:
    return one(
        "public void m(java.util.concurrent.Executor e) {\n"
        + rows(n, lambda k: f"e.execute(() -> {{ synchronized (this) {{ v += {k}; }} }});")
        + "}\n"
    )


def anonymous(n: int) -> str:
    return one(
        rows(
            n,
            lambda k: f"public Runnable m{k}() {{ return new Runnable() {{ int w; public void run() {{ "
            f"synchronized (A.this) {{ v += {k}; w++; }} }} }}; }}",
        )
    )


def overriding(n: int) -> str:
    return "abstract class B { abstract int m(int x); }\n" + rows(
        n,
        lambda k: f"class B{k} extends B {{ private int w; synchronized int m(int x) {{ return w += x; }} "
        f"public int twice(B b) {{ return b.m(1) + b.m({k}); }} }}",
    )


def returns(n: int) -> str:
    return one(
        "public synchronized int m(int x) {\n"
        + rows(n, lambda k: f"if (x == {k}) return v + {k};")
        + "return v; }\n"
    )


def tries(n: int) -> str:
    return one(
        "public synchronized void m(int x) {\n"
        + rows(n, lambda k: f"try {{ v += {k}; all.add(x); }} catch (RuntimeException e) {{ v = {k}; }}")
        + "}\n"
    )


def regions(n: int) -> str:
    return one(
        "public void m(int x) {\n" + rows(n, lambda k: f"synchronized (this) {{ v += {k}; }}") + "}\n"
    )


def hops(n: int) -> str:
    return one(
        "public synchronized void m(A x) {\n"
        + rows(n, lambda k: f"A a{k} = {f'a{k - 1}' if k else 'x'}.next; a{k}.v++;")
        + "}\n"
    )


def elements(n: int) -> str:
    return one(
        "private final int[] some = new int[9]; public synchronized void m(int x) {\n"
        + rows(n, lambda k: f"some[{k % 9}] += some[x];")
        + "}\n"
    )


def constants(n: int) -> str:
    return "enum A {\n" + ",\n".join(
        f"X{k} {{ int m() {{ return v + {k}; }} }}" for k in range(n)
    ) + ";\nint v; abstract int m(); }\n"


def starts(n: int) -> str:
    return one(
        rows(n, lambda k: f"static final java.util.List<String> S{k} = make({k});")
        + "static java.util.List<String> make(int x) { return new java.util.ArrayList<>(); }\n"
        + rows(n, lambda k: f"public synchronized int m{k}() {{ return S{k}.size() + v; }}")
    )


def streams(n: int) -> str:
    return rows(
        n,
        lambda k: f"class S{k} extends java.io.OutputStream {{ private int w;\n"
        f"public synchronized void write(int x) {{ w += x; }} }}",
    ) + one(
        rows(
            n,
            lambda k: f"private final java.io.PrintStream s{k} = new java.io.PrintStream(new S{k}());\n"
            f"public synchronized void m{k}(StringBuilder b) {{ b.append({k}); v++; }}",
        )
    )


def exits(n: int) -> str:
    return one(
        rows(
            n,
            lambda k: f"private final {LIST} all{k} = new java.util.ArrayList<>();\n"
            f"public synchronized {LIST} get{k}() {{ return all{k}; }}\n"
            f"public synchronized void add{k}(int x) {{ all{k}.add(x); v++; }}",
        )
    )


FAMILIES: dict[str, Family] = {
    each.__name__: each
    for each in (
        folder, methods, fields, locks, chain, chain_up, heirs, named, line, region, loops, aliases, stages, builder,
        functions, helpers, nested, statics, reaching, mutual, callers, linked, cases, branches, sums, overloads,
        lambdas, anonymous, overriding, returns, tries, regions, hops, elements, constants, starts,
        streams, exits,
    )
}  # fmt: skip


def seconds(source: str, options: list[str], most: float, program: Path = PROGRAM) -> Optional[float]:
    """The seconds of processors that atomic-java takes for a source; None where it takes more than `most`, or fails."""
    with tempfile.TemporaryDirectory() as where:
        file = Path(where) / "A.java"
        file.write_text(source, encoding="utf-8")
        before = resource.getrusage(resource.RUSAGE_CHILDREN)
        words = ["sh", "-c", f'ulimit -t {int(most) + 1}; exec "$@"', "sh", str(program), *options, str(file)]
        done = subprocess.run(words, stdout=subprocess.DEVNULL, stderr=subprocess.PIPE, check=False)
        after = resource.getrusage(resource.RUSAGE_CHILDREN)
    taken = after.ru_utime + after.ru_stime - before.ru_utime - before.ru_stime
    if done.returncode not in (0, 2) and done.returncode != -signal.SIGKILL:
        print(f"status {done.returncode}: {done.stderr.decode(errors='replace').strip()[-200:]}")
    return taken if done.returncode in (0, 2) and taken <= most else None


def main() -> None:
    """Measures the families that are named."""
    parser = argparse.ArgumentParser(description=__doc__, formatter_class=argparse.RawDescriptionHelpFormatter)
    parser.add_argument("families", nargs="*", metavar="FAMILY", help=f"all, or some of {' '.join(FAMILIES)}")
    parser.add_argument("--sizes", default="250,500,1000", help="the sizes (default: 250,500,1000)")
    parser.add_argument("--seconds", type=float, default=25, help="the most seconds of a run (default: 25)")
    parser.add_argument("--options", default="--public --infer", help="for atomic-java (default: --public --infer)")
    parser.add_argument("--program", type=Path, default=PROGRAM, help="the launcher (default: java/out/atomic-java)")
    given = parser.parse_args()
    if set(given.families) - set(FAMILIES):
        parser.error(f"no family is called {', '.join(sorted(set(given.families) - set(FAMILIES)))}")
    options = given.options.split()
    empty = seconds("class A { }\n", options, given.seconds, given.program) or 0.0
    for name in given.families or FAMILIES:
        last: Optional[float] = None
        for size in map(int, given.sizes.split(",")):
            source = FAMILIES[name](size)
            taken = seconds(source, options, given.seconds + empty, given.program)
            if taken is None:
                print(f"{name:10} {size:6} {len(source):8} bytes: more than {given.seconds:.0f} s")
                break
            more = max(taken - empty, 0.01)
            times = "" if last is None else f"{more / last:6.1f} times"
            print(f"{name:10} {size:6} {len(source):8} bytes {more:7.2f} s {times}", flush=True)
            last = more


if __name__ == "__main__":
    main()
