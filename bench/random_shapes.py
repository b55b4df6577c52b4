"""Random sources of certain shapes, and damaged texts.

A Crowd draws methods with many locks, `workers` a program whose threads meet at shared cells, and `deep` a body whose
height is near the limit. `damaged` cuts, repeats, swaps or changes tokens or bytes of a source.
"""
from __future__ import annotations

import random
import re
from collections.abc import Sequence

TOKEN = re.compile(r"[A-Za-z_0-9]+|==|!=|<=|>=|&&|\|\||--|\S|\s+")
SPARE = (
    "class A B this f g ( ) { } ; , . = == < + - ! && 0 7 2147483648 if else while return synchronized new final int "
    "boolean void atomic requires guarded_by null true @ /* // public implements Runnable extends Thread System x y"
).split()


class Crowd:
    """A program whose methods have about as many locks as they may."""

    def __init__(self, chooser: random.Random, words: Sequence[str]) -> None:
        self.chooser, self.words = chooser, words
        self.count = chooser.randint(2, 5)
        # A tame one takes the lock first, and asks for few.
        self.is_tame = chooser.random() < 0.7
        self.roots: list[str] = []

    def lock(self) -> str:
        weights = [30, 3, 2, 1, 1, 1] if self.is_tame else [6, 2, 2, 1, 1, 1]
        fields = self.chooser.choices(["", ".a", ".b", ".a.a", ".a.b", ".b.a"], weights)[0]
        return self.chooser.choice(self.roots) + fields

    def call(self) -> str:
        args = ", ".join(self.chooser.choice([self.lock(), self.lock(), "null", "r"]) for _ in range(3))
        return f"{self.lock()}.m{self.chooser.randrange(self.count)}({args});"

    def statement(self, depth: int) -> str:
        kind = self.chooser.randint(0, 9 if depth > 0 else 4)
        lock = self.lock()
        if kind <= 1:
            return self.call()
        if kind == 2 and self.is_tame:
            return f"{lock}.u = {self.lock()}.u;"
        if kind == 2:
            return f"{lock}.{self.chooser.choice('uvw')} = {self.lock()}.{self.chooser.choice('vw')};"
        if kind <= 4:
            # The guard of v is the object, that of w its field a.
            field, guard = self.chooser.choice([("v", lock), ("w", f"{lock}.a")])
            return f"synchronized ({guard}) {{ {lock}.{field} = 1; }}" if guard.count(".") <= 2 else ";"
        if kind == 5:
            name = f"x{len(self.roots)}_{self.chooser.randrange(1000)}"
            value = self.chooser.choice([self.lock(), self.lock(), "r", "new N(p, q)"])
            self.roots.append(name)
            rest = self.statements(depth - 1)
            self.roots.pop()
            return f"{{ final N {name} = {value}; {rest} }}"
        if kind == 6:
            return f"if (p == q) {{ {self.statements(depth - 1)} }} else {{ {self.statements(depth - 1)} }}"
        if kind == 7:
            return f"while (p != q) {{ {self.statements(depth - 1)} }}"
        return f"synchronized ({lock}) {{ {self.statements(depth - 1)} }}"

    def statements(self, depth: int) -> str:
        return " ".join(self.statement(depth) for _ in range(self.chooser.randint(1, 3)))

    def method(self, number: int) -> str:
        self.roots = ["this", "p", "q"]
        wanted = self.chooser.choice([0, 0, 0, 0, 0, 1] if self.is_tame else [0, 0, 1, 2, 4])
        requires = sorted({self.lock() for _ in range(wanted)})
        text = f"{'atomic ' * (self.chooser.random() < 0.2)}void m{number}(final N p, final N q, N r)"
        return f"{text}{' requires ' * bool(requires)}{', '.join(requires)} {{ {self.statements(2)} }}"

    def source(self) -> str:
        methods = "\n".join(self.method(k) for k in range(self.count))
        fields = f"int u; int v {self.chooser.choice(self.words)} this; int w {self.chooser.choice(self.words)} this.a;"
        return (
            f"class N {{ final N a; final N b; {fields} N(N a, N b) {{ this.a = a; this.b = b; }}\n{methods} }}\n"
            "class Main { void main() { } }\n"
        )


def method_of(chooser: random.Random, name: str, body: str) -> str:
    return f"{chooser.choice(['atomic ', 'atomic ', '', '', ''])}void {name}(int d) {{ {body} }}"


def cell_step(chooser: random.Random) -> str:
    """A statement of a cell, with its lock held."""
    return chooser.choice(
        [
            "this.v = this.v + d;",
            "this.v = this.v * 2; this.w = this.v;",
            "if (this.v > 3) { this.v = d; } else { this.w = this.w - d; }",
            "int i = 0; while (i < 2) { this.v = this.v + i; i = i + 1; }",
            "synchronized (this) { this.w = d; }",
            "if (d == 7) { return; } this.w = this.w + 1;",
            "this.v = d / this.w;",
        ]
    )


def cell_body(chooser: random.Random, calls: list[str]) -> str:
    first = cell_step(chooser)
    second = chooser.choice(calls + [cell_step(chooser)]) if calls else ""
    held = f"synchronized (this) {{ {first} {second} }}"
    free = ["this.u = d;", "System.out.println(d);", "this.u = this.u + d;", "System.out.println(this.x);", ""]
    behind, before, alone = (chooser.choice(free) for _ in range(3))
    return chooser.choice([held, held, held, f"{held} {behind}", f"{before} {held}", alone])


def heirs(chooser: random.Random, cells: list[str]) -> str:
    """Classes below `Cell`, whose methods override some of these, and one below `W`."""
    text, above = "", "Cell"
    known: list[str] = []
    for name in ("Near", "Far")[: chooser.randint(1, 2)]:
        heads = [cell.partition("{")[0] for cell in cells if chooser.random() < 0.6]
        known += [f"this.{head.split('void ')[1][0]}(d);" for head in heads if chooser.random() < 0.2]
        bodies = [cell_body(chooser, known[:1] if chooser.random() < 0.3 else []) for _ in heads]
        locked = f"synchronized (this) {{ {cell_step(chooser)} }}"
        own = [f"{head}{{ {locked if head.startswith('atomic') else body} }}" for head, body in zip(heads, bodies)]
        text += f"class {name} extends {above} {{ {' '.join(own)} }}\n"
        above = chooser.choice([above, name])
    run = chooser.choice(["", "public void run() { this.p.a.m(1); this.p.b.n(2); } "])
    return text + f"class V extends W {{ V(Pair p) {{ this.p = p; }} {run}}}\n"


def workers(chooser: random.Random, words: Sequence[str], extends: bool = False) -> str:
    """A program in which some threads call methods of two cells and of a pair, which holds both; it ends or faults."""
    word = chooser.choice(words)
    cells: list[str] = []
    calls: list[str] = []
    for name in ("m", "n", "o", "p")[: chooser.randint(2, 4)]:
        cells.append(method_of(chooser, name, cell_body(chooser, calls)))
        calls.append(f"this.{name}(d);")
    pairs = []
    for name in ("both", "one", "two"):
        inner = " ".join(
            f"this.{chooser.choice('ab')}.{call[5:]}" for call in chooser.choices(calls, k=chooser.randint(1, 3))
        )
        first, second = chooser.choice([("a", "b"), ("b", "a")])
        locked = f"synchronized (this.{first}) {{ {inner} }}"
        both = f"synchronized (this.{first}) {{ synchronized (this.{second}) {{ {inner} }} }}"
        pairs.append(method_of(chooser, name, chooser.choice([inner, locked, both, both])))
    runs = [
        f"this.p.{chooser.choice(['both', 'one', 'two', 'a.m', 'b.n'])}({chooser.randint(0, 8)});"
        for _ in range(chooser.randint(1, 3))
    ]
    below = heirs(chooser, cells) if extends else ""
    kinds = ["Cell"] + re.findall(r"class (\w+) extends (?:Cell|Near)", below)
    runs_of = ["W", "V"] if extends else ["W"]
    starts = " ".join(f"new Thread(new {chooser.choice(runs_of)}(p)).start();" for _ in range(chooser.randint(2, 3)))
    pair = f"new Pair(new {chooser.choice(kinds)}(), new {chooser.choice(kinds)}())"
    return (
        f"class Cell {{ int v {word} this; int w guarded_by this; int u; int x {words[-1]} this; {' '.join(cells)} }}\n"
        f"class Pair {{ final Cell a; final Cell b; Pair(Cell a, Cell b) {{ this.a = a; this.b = b; }} "
        f"{' '.join(pairs)} }}\n"
        f"class W implements Runnable {{ final Pair p; W(Pair p) {{ this.p = p; }} "
        f"public void run() {{ {' '.join(runs)} }} }}\n"
        f"{below}class Main {{ void main() {{ final Pair p = {pair}; {starts} }} }}\n"
    )


STATEMENTS = [
    "{ %s }",
    "if (true) %s",
    "if (true) ; else %s",
    "while (b) %s",
    "synchronized (this) { %s }",
    "{ ; %s ; }",
    "{ int a = 0; %s }",
]
ENDS = [
    "x = %s;",
    "this.f = %s;",
    "%s.f = 1;",
    "this.m(%s);",
    "%s.m();",
    "new A(%s);",
    "return %s;",
    "System.out.println(%s);",
    "new Thread(%s).start();",
    "{ int y = %s; }",
    "if (%s) ;",
    "%s;",
]
EXPRESSIONS = [
    "(%s)",
    "!%s",
    "-%s",
    "%s + 1",
    "1 * %s",
    "%s && b",
    "%s.f",
    "%s.m()",
    "this.m(1, %s)",
    "new A(%s)",
    "this.f.m(%s).g",
    "%s == null",
]
LEAVES = ["1", "x", "this", "-2147483648", "2147483648", "null", "true", "new A()", "a.b.c"]


def deep(chooser: random.Random) -> str:
    """A body whose height is near the limit, by statements, by expressions or by both."""
    value, levels = chooser.choice(LEAVES), chooser.randint(56, 68)
    inner = chooser.choice([0, 1, 2, 5, levels // 2, levels])
    for _ in range(inner):
        value = chooser.choice(EXPRESSIONS) % value
    body = chooser.choice(ENDS) % value
    for _ in range(levels - inner):
        body = chooser.choice(STATEMENTS) % body
    return f"class Main {{ void main() {{ {body} }} }}"


def damaged(source: str, chooser: random.Random) -> bytes:
    """The source with some tokens or bytes cut, repeated, swapped or changed."""
    if chooser.random() < 0.1:
        return damaged_bytes(source.encode(), chooser)
    return damaged_tokens(TOKEN.findall(source), chooser).encode()


def damaged_bytes(given: bytes, chooser: random.Random) -> bytes:
    data = bytearray(given)
    for _ in range(chooser.randint(1, 3)):
        at = chooser.randrange(len(data) + 1)
        change = chooser.randint(0, 2)
        if change == 0:
            data[at:at] = bytes([chooser.randrange(256)])
        elif change == 1:
            del data[at : at + chooser.randint(1, 40)]
        elif at < len(data):
            data[at] = chooser.randrange(256)
    return bytes(data)


def damaged_tokens(tokens: list[str], chooser: random.Random) -> str:
    for _ in range(chooser.randint(1, 3)):
        at = chooser.randrange(len(tokens) + 1)
        change = chooser.randint(0, 4)
        if change == 0:
            tokens.insert(at, f" {chooser.choice(SPARE)} ")
        elif change == 1:
            del tokens[at : at + chooser.randint(1, 3)]
        elif change == 2 and at < len(tokens):
            tokens[at] = f" {chooser.choice(SPARE)} "
        elif change == 3 and at + 1 < len(tokens):
            other = chooser.randrange(len(tokens))
            tokens[at], tokens[other] = tokens[other], tokens[at]
        elif change == 4:
            del tokens[at:]
    return "".join(tokens)
