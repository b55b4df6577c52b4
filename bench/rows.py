"""Worked rows: command, source, status and text that are wanted. None of them comes from a program."""
from __future__ import annotations

from family_rows import families, family_schedules
from row_parts import (
    APPEND,
    BUFFER,
    EMPTY_MAIN,
    INC,
    LOCKED,
    RUN,
    Row,
    STARTS,
    ScheduleRow,
    WRITES,
    accepted,
    broken,
    counter,
    counter_with,
    lines,
    refused,
)


def counters() -> list[Row]:
    """The counter, with more members."""
    peek = "int peek() requires this { return this.v; } "
    return [
        accepted(counter(), INC, RUN, STARTS),
        accepted(counter() + " " * (262144 - len(counter())), INC, RUN, STARTS),
        broken(counter("atomic void twice() { this.inc(); this.inc(); } "), "Cell.twice: declared atomic, found cmpd"),
        counter_with(
            "atomic void twice() { synchronized (this) { this.inc(); this.inc(); } } ",
            "Cell.twice this ? mover : atomic",
        ),
        broken(counter("int peek() { return this.v; } "), "Cell.peek: declared cmpd, found error"),
        counter_with(peek, "Cell.peek mover"),
        broken(counter(peek, "c.peek(); "), "Main.main: declared cmpd, found error"),
        broken(BUFFER % APPEND, "Buf.append: declared atomic, found cmpd"),
        accepted(
            BUFFER % ("synchronized (sb) { " + APPEND + " }"),
            "Buf.length this ? mover : atomic",
            "Buf.get this ? mover : atomic",
            "Buf.append this ? (sb ? mover : atomic) : atomic",
            "Main.main const",
        ),
        counter_with(
            "atomic void fill() { synchronized (this) { while (this.v < 10) { this.v = this.v + 1; } } } ",
            "Cell.fill this ? mover : atomic",
        ),
        broken(
            counter("int u; atomic void grow() { while (this.u < 10) { this.u = this.u + 1; } } "),
            "Cell.grow: declared atomic, found cmpd",
        ),
        counter_with(
            "atomic void down(int k) requires this { "
            "if (k > 0) { this.v = this.v + k; this.down(k - 1); this.down(k - 1); } } ",
            "Cell.down mover",
        ),
    ]


def boxes() -> list[Row]:
    """Locks that are reached by fields, and how many a method may have."""
    clear = "atomic void clear() { final Cell x = this.c; synchronized (x) { x.v = 0; %s} } "
    box = "class Box { final Cell c; Box(Cell c) { this.c = c; } " + clear + "}"

    def locking(names: str) -> str:
        params = ", ".join(f"final L {name}" for name in names)
        body = "".join(f"synchronized ({name}) {{ }} " for name in names)
        return f"class L {{ }} class Main {{ void m({params}) {{ {body}}} void main() {{ }} }}"

    return [
        accepted(counter(behind=box % ""), INC, RUN, STARTS, "Box.clear this.c ? mover : atomic"),
        broken(counter(behind=box % "this.c.v = 1; "), "Box.clear: declared atomic, found error"),
        broken(
            counter("Cell self() { return this; } int far() requires this { return this.self().v; } "),
            "Cell.far: declared cmpd, found error",
        ),
        refused(locking("abcdefghi"), "1:31: too many locks"),
        ("check", locking("abcdefgh"), 0, None),
    ]


def mains() -> list[Row]:
    """Fields of `Main`, with guards and without."""
    return [
        accepted(LOCKED, "Main.main this ? mover : atomic"),
        broken(
            "class Main { int v guarded_by this; void main() { this.v = 7; } }", "Main.main: declared cmpd, found error"
        ),
        broken(
            "class Main { int u; atomic void main() { this.u = 1; this.u = 2; } }",
            "Main.main: declared atomic, found cmpd",
        ),
        accepted(
            "class Main { int v guarded_by this; void main() { } void set() requires this { this.v = 1; } }",
            "Main.main const",
            "Main.set mover",
        ),
    ]


def verdicts() -> list[Row]:
    return [*counters(), *boxes(), *mains()]


def faults() -> list[Row]:
    many = "\n".join(f"int f{k};" for k in range(33))
    locals_ = "\n".join(f"int a{k} = 0;" for k in range(65))
    deep = "class Main { void main() {" + "{" * 64 + "}" * 64 + "} }"
    return [
        refused("", "1:1: no main"),
        refused("/* x", "1:1: open comment"),
        refused(b"class \x80", "1:7: not text"),
        refused("class Main { void main() { if (true) { } el", "1:44: unexpected"),
        refused("class Main { void main() { System.out.println(21", "1:49: unexpected"),
        refused("class Main { void main() { x++; } }", "1:29: unexpected"),
        refused("class Main { void main() { int a = true; } }", "1:32: no rule"),
        refused("class Main { void main() { a = 2147483649; } }", "1:32: literal too large"),
        refused(deep, "1:90: too deep", "print"),
        refused("class A { } class A { } " + EMPTY_MAIN, "1:19: declared twice"),
        refused("class Main { X x; void main() { } }", "1:14: unknown class"),
        refused("class A { final int n; } " + EMPTY_MAIN, "1:7: bad constructor"),
        refused("class A implements Runnable { } " + EMPTY_MAIN, "1:7: no run"),
        refused(f"class Main {{\n{many}\nvoid main() {{ }} }}", "34:5: too many"),
        refused("class Main { void main() { a = 1; } }", "1:28: unknown name"),
        refused("class Main { void main() { final int a = 1; a = 2; } }", "1:45: final assigned"),
        refused("class Main { void main() { Main m = this; synchronized (m) { } } }", "1:57: not a lock"),
        refused("class Main { void main() { } int f() { } }", "1:40: missing return"),
        refused("class Main { void main() { return; ; } }", "1:36: unreachable"),
        refused(f"class Main {{ void main() {{\n{locals_}\n}} }}", "66:5: too many locals"),
        refused("class Main { void main() { int a = 0; int a = 1; } }", "1:43: redeclared"),
    ]


def prints() -> list[Row]:
    plain = lines("class Main {", "    void main() {", "    }", "}")
    branches = lines(
        "class Main {",
        "    void main() {",
        "        if (true) {",
        "            ;",
        "        }",
        "        else {",
        "        }",
        "    }",
        "}",
    )
    return [
        ("print", "class Main{void main(){}}", 0, plain),
        ("print", "public class Main{public void main(){}}", 0, plain),
        ("print", "class Main{void main(){if(true){;}else{}}}", 0, branches),
        ("print", "", 0, ""),
        ("print", "class Main { void main() {" + "{" * 63 + "}" * 63 + "} }", 0, None),
    ]


def write_guards() -> list[Row]:
    twice = "atomic void twice() { synchronized (this) { this.inc(); this.inc(); } } "
    return [
        accepted(WRITES % "", "Cell.get this ? mover : atomic", "Cell.inc atomic", "Main.main const"),
        broken(WRITES % "atomic void bad() { this.v = 1; } ", "Cell.bad: declared atomic, found error"),
        broken(WRITES % twice, "Cell.twice: declared atomic, found cmpd"),
    ]


def rows(with_write_guards: bool, with_extends: bool) -> list[Row]:
    """All rows; where the text is None, only the status is wanted."""
    return (
        verdicts()
        + faults()
        + prints()
        + (write_guards() if with_write_guards else [])
        + (families() if with_extends else [])
    )


def after(line: str, state: list[str]) -> str:
    """A schedule, and behind it the lines of a state."""
    return lines(line, *("# " + text for text in state))


def counted_schedules() -> list[ScheduleRow]:
    """Schedules of the counter."""
    counted = counter()
    left = ["object 0:0 Main", "object 0:1 Cell v=0", "object 0:2 W c=0:1", "object 0:3 W c=0:1"]
    done = ["thread 0 done", "thread 1 done", "thread 2 done"]
    shared = ["object 0:0 Main", "object 0:1 Cell v=2", *left[2:], *done]
    return [
        ("serialise", counted, "0*10 1*4 2*4 1*2 2 1*7 2 1 2*8 1 2", 0, after("0*10 1*3 2*3 1*11 2*11 1 2", shared)),
        ("serialise", counted, "", 0, after("", ["object 0:0 Main", "thread 0 ready"])),
        ("run", counted, "0*3 5", 4, lines("entry 4: thread 5 is absent")),
        ("run", counted, "0*10 1*6 2*6", 4, lines("entry 22: thread 2 waits for 0:1 held by 1")),
        ("run", counted, "0*11", 4, lines("entry 11: thread 0 is done")),
        ("serialise", counted, "0*10 1*6", 5, lines("thread 1 is inside an atomic call")),
        (
            "run",
            counted,
            "0*10 1*6",
            0,
            lines(*left, "lock 0:1 thread 1 count 1", "thread 0 done", "thread 1 running Cell.inc 2", "thread 2 ready"),
        ),
    ]


def number_schedules() -> list[ScheduleRow]:
    """Schedules of a `main` that prints numbers, and of one that takes its lock twice."""
    terms = [f"System.out.println({term}); " for term in ("-2147483648 / -1", "-7 % 3", "1 / 0")]
    numbers = "class Main { void main() { " + "".join(terms) + "} }"
    locked = "synchronized (this) { synchronized (this) { this.v = 7; } }"
    twice = "class Main { int v guarded_by this; atomic void main() { " + locked + " } }"
    printed = ["print -2147483648", "print -1", "object 0:0 Main", "thread 0 faulted zero"]
    return [
        ("serialise", numbers, "0*14", 0, after("0*14", printed)),
        ("run", numbers, "0*14", 0, lines(*printed)),
        ("serialise", numbers, "0*15", 4, lines("entry 15: thread 0 is faulted zero")),
        (
            "run",
            twice,
            "0*5",
            0,
            lines("object 0:0 Main v=0", "lock 0:0 thread 0 count 2", "thread 0 running Main.main 1"),
        ),
        ("serialise", twice, "0*11", 0, after("0*11", ["object 0:0 Main v=7", "thread 0 done"])),
    ]


def bounded_schedules() -> list[ScheduleRow]:
    """Texts that are no schedules, and the bounds of stacks and of entries."""
    counted = counter()
    calls = "class Main { void f() { this.f(); } void main() { this.f(); } }"
    follows = "class Main { Main m; void main() { this.m.m = this; } }"
    loop = "class Main { void main() { while (true) { } } }"
    return [
        ("run", counted, "0*0", 3, lines("schedule refused at byte 2: form")),
        ("run", counted, "0*200001", 3, lines("schedule refused at byte 0: too long")),
        ("run", counted, "0 x", 3, lines("schedule refused at byte 2: form")),
        ("run", counted, "0*200001x", 3, lines("schedule refused at byte 8: form")),
        ("run", calls, "0*2001", 0, lines("object 0:0 Main", "thread 0 faulted depth")),
        ("run", calls, "0*2000", 0, lines("object 0:0 Main", "thread 0 running Main.f 1000")),
        ("run", follows, "0*5", 0, lines("object 0:0 Main m=null", "thread 0 faulted null")),
        ("serialise", loop, "0*200000", 0, after("0*200000", ["object 0:0 Main", "thread 0 running Main.main 1"])),
        ("serialise", loop, "0*200001", 3, lines("schedule refused at byte 0: too long")),
    ]


def schedule_rows(with_extends: bool) -> list[ScheduleRow]:
    """Rows of two files: command, source, schedule, status and text."""
    first = family_schedules() if with_extends else []
    return [*first, *counted_schedules(), *number_schedules(), *bounded_schedules()]
