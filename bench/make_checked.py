#!/usr/bin/env python3
"""Writes a well-formed source of at most 262,144 bytes for `check`, as large as that allows; with `refused` one that
the rules refuse, for `blame`: the last method breaks its bound, in `chain` and `cycle` the first one, which is found
last. With `--share N` the source has the N-th part of that size, or of the counts below.

classes     thousands of classes with a guarded field and a method each
methods     one class with thousands of methods that call each other
statements  one method with thousands of statements
locks       methods with eight relevant paths and long bodies
chain       3,000 methods, each of which calls the next; the last one is compound
chain_back  the same, each of which calls the one before; the first one is compound
cycle       1,000 methods in a circle
paths       thousands of blocks that lock a path of two fields
calls       methods with eight relevant and eight local paths, and bodies of a hundred calls on them
line        500 classes in a line, each of which overrides the one method
heirs       one class with 2,000 heirs that override its method
inherited   1,000 classes that inherit 20 methods each, and call one of them
pairs       3,162 empty classes that inherit as many methods each: ten million pairs of a method and what runs for it
sets        a method with eight relevant paths that is called at each of their 256 parts, for `levels`
sets_calls  500 of these that call each other
sets_rise   as many as fit, called under more and more levels, of which each comes to them later than the one before
floors      a chain of methods with eight relevant paths whose effect rises three times at each of their 256 parts,
            round by round; with `refused` the longest certificate that was found
"""
from __future__ import annotations

import itertools
import string
import sys
from collections.abc import Callable, Iterator
from dataclasses import dataclass

from command_line import count_of, words_of


@dataclass
class Wanted:
    """Which part of the whole size a source has, and whether its last method breaks its bound."""

    share: int = 1
    refused: bool = False

    @property
    def last(self) -> str:
        return "class Last { int u; atomic void last() { this.u = 1; this.u = 2; } }\n" if self.refused else ""

    @property
    def limit(self) -> int:
        return 262144 // self.share - len(self.last)

    def of(self, count: int) -> int:
        return max(count // self.share, 1)


WANTED = Wanted()
LOCKS = "abcdefgh"
MAIN = "class Main { void main() { } }\n"


def filled(head: str, part: Callable[[int], str], tail: str) -> str:
    """The head, as many parts as there is room for, numbered from 0, and the tail."""
    text, number = [head], 0
    size = len(head) + len(tail)
    while True:
        piece = part(number)
        if size + len(piece) > WANTED.limit:
            return "".join(text) + tail
        text.append(piece)
        size += len(piece)
        number += 1


def classes() -> str:
    def one(k: int) -> str:
        body = f"synchronized (this) {{ this.v = {k}; }}"
        return f"class C{k} {{ int v guarded_by this; atomic void f() {{ {body} }} }}\n"

    return filled(MAIN, one, "")


def methods() -> str:
    return filled(
        "class Main { int v guarded_by this; void main() { } void m0() requires this { this.v = 0; }\n",
        lambda k: f"void m{k + 1}() requires this {{ this.m{k // 2}(); }}\n",
        "}\n",
    )


def statements() -> str:
    return filled(
        "class Main { int v guarded_by this; atomic void main() { synchronized (this) {\n",
        lambda k: f"this.v = this.v + {k};\n",
        "} } }\n",
    )


def locks() -> str:
    params = ", ".join(f"final C p{k}" for k in range(8))
    line = " ".join(f"p{k}.v = p{(k + 1) % 8}.v;" for k in range(8))
    return filled(
        "class C { int v guarded_by this; }\n" + MAIN + "class L {\n",
        lambda k: f"void m{k}({params}) requires p0, p1, p2, p3, p4, p5, p6, p7 {{ {line * 8} }}\n",
        "}\n",
    )


def calls() -> str:
    params = ", ".join(f"final C {p}" for p in "abcdefgh")
    locals_ = "".join(f"final C {p} = new C(); synchronized ({p}) {{ " for p in "ijklmnop")
    body = "".join(f"{'abcdefghijklmnop'[k % 16]}.f(); " for k in range(100))
    return filled(
        "class C { int v guarded_by this; void f() requires this { this.v = 0; } }\n" + MAIN + "class L {\n",
        lambda k: f"void m{k}({params}) requires {', '.join('abcdefgh')} {{ {locals_}{body}{'} ' * 8}}}\n",
        "}\n",
    )


def chain(forward: bool) -> str:
    count = WANTED.of(3000)
    part: list[str] = []
    for k in range(count):
        other = k + 1 if forward else k - 1
        body = f"this.m{other}();" if 0 <= other < count else "this.u = 1; this.u = 2;"
        part.append(f"void m{k}() {{ {body} }}\n")
    if WANTED.refused:
        part[0 if forward else -1] = "atomic " + part[0 if forward else -1]
    return "class Main { int u; void main() { }\n" + "".join(part) + "}\n"


def cycle() -> str:
    count = WANTED.of(1000)
    part = [f"void m{k}() {{ this.u = {k}; this.m{(k + 1) % count}(); }}\n" for k in range(count)]
    if WANTED.refused:
        part[0] = "atomic " + part[0]
    return "class Main { int u; void main() { }\n" + "".join(part) + "}\n"


def paths() -> str:
    return filled(
        MAIN + "class N { final N a; int v guarded_by this; N(N a) { this.a = a; } void m(final N x) {\n",
        lambda k: f"synchronized (x.a.a) {{ x.a.a.v = {k}; }}\n",
        "} }\n",
    )


def overriding(name: str, above: str, value: int) -> str:
    body = f"synchronized (this) {{ this.v = {value}; }}"
    return f"class {name}{' extends ' * bool(above)}{above} {{ atomic void f() {{ {body} }} }}\n"


FIRST = "class C { int v guarded_by this; atomic void f() { synchronized (this) { this.v = 0; } } }\n"


def line() -> str:
    return MAIN + FIRST + "".join(overriding(f"C{k}", f"C{k - 1}" if k else "C", k) for k in range(WANTED.of(500) - 1))


def heirs() -> str:
    return MAIN + FIRST + "".join(overriding(f"C{k}", "C", k) for k in range(WANTED.of(2000)))


def inherited() -> str:
    methods = " ".join(f"atomic void f{k}() {{ synchronized (this) {{ this.v = {k}; }} }}" for k in range(20))
    calls = (f"synchronized (this) {{ this.f{k % 20}(); }}" for k in range(WANTED.of(1000)))
    heirs_ = "".join(f"class C{k} extends C {{ atomic void g() {{ {call} }} }}\n" for k, call in enumerate(calls))
    return MAIN + f"class C {{ int v guarded_by this; {methods} }}\n" + heirs_


def pairs() -> str:
    count = WANTED.of(3162)
    methods = " ".join(f"void f{k}() {{ }}" for k in range(count))
    return MAIN + f"class C {{ {methods} }}\n" + "".join(f"class C{k} extends C {{ }}\n" for k in range(count))


def at_each_part(call: str, locks: str = LOCKS) -> str:
    """The call at each part of the locks."""
    if not locks:
        return call
    inner = at_each_part(call, locks[1:])
    return f"if (this.t) {{ synchronized ({locks[0]}) {{ {inner} }} }} else {{ {inner} }}"


ALL = f"({', '.join(LOCKS)})"
EIGHT = ", ".join(f"final D{k} {p}" for k, p in enumerate(LOCKS))
USES = " ".join(f"{p}.v = 1;" for p in LOCKS)


def with_sets(first: str, methods: list[str], more: str = "") -> str:
    """A program whose `main` calls the first of these methods at each part of eight locks of different classes."""
    made = " ".join(f"final D{k} {p} = new D{k}();" for k, p in enumerate(LOCKS))
    locks = "".join(f"class D{k} {{ int v guarded_by this; }}\n" for k in range(len(LOCKS)))
    calls = at_each_part(f"this.{first}{ALL};")
    return f"{locks}{more}class Main {{ boolean t;\n{''.join(methods)}void main() {{ {made} {calls} }} }}\n"


def sets() -> str:
    return with_sets("m", [f"void m({EIGHT}) {{ {USES} }}\n"])


def sets_calls(count: int) -> str:
    def method(k: int) -> str:
        calls = f"this.m{(k + 1) % count}{ALL}; this.m{(7 * k + 1) % count}{ALL};"
        return f"void m{k}({EIGHT}) {{ {USES * (k == 0)} {calls} }}\n"

    return with_sets("m0", [method(k) for k in range(count)])


def sets_rise(count: int) -> str:
    """Levels come to the end of a chain, one a round, and go back to its beginning."""
    methods = [f"void m0({EIGHT}) {{ {USES} this.m1{ALL}; }}\n"]
    for k in range(1, count):
        on = f"this.m{k + 1}{ALL};" * (k + 1 < count)
        methods += [f"void m{k}({EIGHT}) {{ {on} this.m{k - 1}{ALL}; }}\n"]
    methods += [f"void v0({EIGHT}) {{ this.m{count - 1}{ALL}; }}\n"]
    for k in range(1, count):
        held = f"final E{k} z = new E{k}(); synchronized (z) {{ this.v{k - 1}{ALL}; }}"
        methods += [f"void v{k}({EIGHT}) {{ {held} }}\n"]
    each = "".join(f"this.v{k}{ALL}; " for k in range(count))
    methods += [f"void w({EIGHT}) {{ this.m0{ALL}; {each}}}\n"]
    return with_sets("w", methods, "".join(f"class E{k} {{ }}\n" for k in range(1, count)))


def most(make: Callable[[int], str]) -> str:
    """What is made for the greatest number for which it fits."""
    low, high = 2, WANTED.limit
    while high - low > 1:
        middle = (low + high) // 2
        low, high = (middle, high) if len(make(middle)) <= WANTED.limit else (low, middle)
    return make(low)


TAKEN = frozenset(
    "if int new for do run try main Main void last this char else long goto enum byte case null true".split()
)


def short_names() -> Iterator[str]:
    """Names that no other method or class has, the shortest first."""
    sizes = (itertools.product(string.ascii_letters, repeat=size) for size in itertools.count(1))
    words = map("".join, itertools.chain.from_iterable(sizes))
    return (word for word in words if word not in TAKEN)


def floors(count: int, promise: str = "atomic ") -> str:
    """A chain of so many methods. Those that bring a greater effect stand behind it, so it comes there a round later.
    Many fields make long paths."""
    fields = "".join(f"class F{k}{{{''.join(f'int {a};' for a in string.ascii_letters[:32])}}}" for k in range(32))
    finals, given = "".join(f"final D {p};" for p in LOCKS), ",".join(f"D {p}" for p in LOCKS)
    sets_of = "".join(f"this.{p}={p};" for p in LOCKS)
    locks = f"class D{{int v write_guarded_by this;}}class N{{{finals}N({given}){{{sets_of}}}}}"
    one, two, three, four, *names = itertools.islice(short_names(), count + 4)
    chain = "".join(f"void {name}(){{this.{called}();}}" for name, called in zip(names, [one, *names]))
    reads = "else ".join(f"if(x==1){{x=this.n.{p}.v;}}" for p in LOCKS)
    later = f"void {one}(){{int x=0;this.{two}();}}void {two}(){{this.u=1;this.{three}();}}"
    later += f"void {three}(){{this.u=1;this.u=2;this.{four}();}}void {four}(){{int x=0;{reads}}}"
    last = f"{promise}void last(){{this.{names[-1]}();}}"
    return f"{fields}{locks}class M{{final N n;int u;M(N n){{this.n=n;}}{chain}{later}{last}}}\n{MAIN}"


KINDS: dict[str, Callable[[], str]] = {
    "classes": classes,
    "methods": methods,
    "statements": statements,
    "locks": locks,
    "calls": calls,
    "chain": lambda: chain(True),
    "chain_back": lambda: chain(False),
    "cycle": cycle,
    "paths": paths,
    "line": line,
    "heirs": heirs,
    "inherited": inherited,
    "pairs": pairs,
    "sets": sets,
    "sets_calls": lambda: sets_calls(WANTED.of(500)),
    "sets_rise": lambda: most(sets_rise),
    "floors": lambda: most(lambda count: floors(count, "atomic " * WANTED.refused)),
}
# those whose refused method isn't the last one
OWN = ("chain", "chain_back", "cycle", "floors")


def main() -> None:
    parser = words_of(__doc__)
    parser.add_argument("kind", metavar="KIND", choices=sorted(KINDS))
    parser.add_argument("refused", choices=["refused"], nargs="?", help="a source that the rules refuse")
    parser.add_argument("--share", metavar="N", type=count_of, default=1, help="the N-th part of the size")
    given = parser.parse_args()
    WANTED.share, WANTED.refused = given.share, bool(given.refused)
    sys.stdout.write(KINDS[given.kind]() + ("" if given.kind in OWN else WANTED.last))


if __name__ == "__main__":
    main()
