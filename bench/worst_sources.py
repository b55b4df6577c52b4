"""Families of sources that are worst for a command; `worst.py` measures them.

overriding  classes in a line, each of which overrides the one method; it calls a method with eight relevant paths
reverse     the same, where the last class stands first in the source
rising      the same without the call; the last one alone is compound, and the others come to be so by it
late        the same, where the last one calls that method; a method that calls the first one shows it
mixed       late, where the called method has a path less, and one in the middle locks that one
leaves      late, where half of the classes extend the last of the others, and call methods with other locks each
own         such classes, of which each locks a field of its own that the others don't know
own_more    own, where each of these calls a method with seven relevant paths as well
waves       such classes with the same locks, of which 40 come to be compound, each a pass after the one before
own_waves   own_more, of which 40 come to be compound so
masks       waves, where all of them call methods with other locks each
threes      classes in a line that override three methods each and call that one, of which 40 come to be compound so
empty       classes in a line, each of which overrides an empty method
names       the same with three methods
pairs       classes that inherit many methods, and override none
finals      classes in a line, each of which assigns a final field of the first one
fresh       classes in a line, each of which has a method with a name of its own
far         classes in a line, of which each in the lower half overrides the one method of another in the upper half
wide        a class with many methods, and one that overrides them all
line        classes in a line, each of which overrides a method with a lock
bad         the same with an empty method, which the last one alone overrides with a result (refused)
all_bad     the same, where each but the first has a result (refused)
apart       classes as in fresh, and one by itself that has methods of these names with a result
fields      classes in a line, each of which has a field (refused)
calls       classes in a line, and as many bytes of calls of the first one's method on an object of the last
reads       the same with a field that is set in place of a method
gives       the same, where that object is assigned to a local of the first class
own_calls   calls, where each class has a method with a name of its own
unknown     calls, and then the call of a method that no class has (refused)
sets_calls  methods that call each other, called at each part of eight locks
sets_rise   methods that are called under more and more levels
floors      a chain of methods whose effect rises three times at each part of eight locks
leaf_locks  classes that override one method and lock a field of their own each; it is called many times under a lock
deep        classes in a line, where a loop calls the first one's method on an object of the last
crowd       the same for objects of the last 60 classes and eight methods, called at eight places
firsts      the same for an object of each class of the lower half
spread      the same for objects of 100 classes of the lower half and 400 methods, called at 400 places

The last four are run: `run`, `serialise`, `serialise-open` and `replay` get a schedule of 200,000 entries.
"""
from __future__ import annotations

import itertools
from collections.abc import Callable

import make_checked

MAIN = "class Main{void main(){}}\n"
LAST = "class Last{int u;atomic void last(){this.u=1;this.u=2;}}\n"
FIELDS = "abcdefg"
MASKS = [names for size in range(1, 8) for names in itertools.combinations(FIELDS, size)]
WAVES = 40
HELD = "final L h;e{0}(L h){{this.h=h;}}void f(final X x){{synchronized(this.h){{}}{1}}}"
LAST_RISING = f"class Last{{atomic void last(final X x){{x.s{WAVES - 1}();}}}}\n"
RESULT = "int f(){return 1;}"
Family = Callable[[int], str]


def locked(names: str = FIELDS, methods: str = "") -> str:
    """A class with these methods and one that locks these of its fields and then itself."""
    fields = "".join(f"final L {name};" for name in FIELDS)
    sets = "".join(f"this.{name}={name};" for name in FIELDS)
    params = ",".join(f"L {name}" for name in FIELDS)
    locks = "".join(f"synchronized(this.{name}){{}}" for name in names)
    return f"class L{{}}class X{{{fields}X({params}){{{sets}}}{methods}void g(){{{locks}synchronized(this){{}}}}}}\n"


def heirs(count: int, body: Callable[[int], str]) -> list[str]:
    """So many classes in a line, with these bodies."""
    return [f"class c{k}{f' extends c{k - 1}' if k else ''}{{{body(k)}}}\n" for k in range(count)]


def own_broom(count: int, bodies: list[str]) -> str:
    """So many classes in a line, and one with each of these bodies that extends the last of them."""
    line = heirs(count, lambda k: "void f(final X x){}")
    ends = [f"class e{k} extends c{count - 1}{{{body}}}\n" for k, body in enumerate(bodies)]
    return "".join(line + ends)


def broom(count: int, bodies: list[str]) -> str:
    """The same, where each overrides the method with one of these bodies."""
    return own_broom(count, [f"void f(final X x){{{body}}}" for body in bodies])


def rising_methods() -> str:
    """Methods that come to be compound one after the other, each a pass after the one before."""
    bodies = ["this.u=1;this.u=2;"] + [f"this.s{k}();" for k in range(WAVES - 1)]
    return "int u;" + "".join(f"void s{k}(){{{body}}}" for k, body in reversed(list(enumerate(bodies))))


def overriding(count: int) -> str:
    return MAIN + locked() + "".join(heirs(count, lambda k: "void f(final X x){x.g();}"))


def reverse(count: int) -> str:
    return MAIN + locked() + "".join(reversed(heirs(count, lambda k: "void f(final X x){x.g();}")))


def rising(count: int) -> str:
    last = "this.u=1;this.u=2;"
    return MAIN + "".join(heirs(count, lambda k: "int u;" * (k == 0) + f"void f(){{{last * (k == count - 1)}}}"))


CALLER = "class Last{atomic void last(final X x,final c0 y){y.f(x);y.f(x);}}\n"


def called_last(locks: str, bodies: dict[int, str], count: int) -> str:
    """Classes in a line with these bodies, and a method that calls the first one's twice."""
    line = heirs(count, lambda k: f"void f(final X x){{{bodies.get(k, '')}}}")
    return MAIN + locked(locks) + "".join(line) + CALLER


def late(count: int) -> str:
    return called_last(FIELDS, {count - 1: "x.g();"}, count)


def mixed(count: int) -> str:
    return called_last(FIELDS[:-1], {count // 2: "synchronized(x.g){}", count - 1: "x.g();"}, count)


def mask_methods() -> str:
    """A method for each choice of locks."""
    bodies = ["".join(f"synchronized(this.{name}){{}}" for name in names) for names in MASKS]
    return "".join(f"void g{k}(){{{body}}}" for k, body in enumerate(bodies))


def mask_call(k: int) -> str:
    return f"x.g{37 * k % len(MASKS)}();"


def leaves(count: int) -> str:
    calls = [mask_call(k) for k in range(count - count // 2 - 1)] + ["x.g();"]
    return MAIN + locked(methods=mask_methods()) + broom(count // 2, calls) + CALLER


def masks(count: int) -> str:
    calls = [mask_call(k) + f"x.s{k}();" * (k < WAVES) for k in range(count - count // 2)]
    return MAIN + locked(methods=mask_methods() + rising_methods()) + broom(count // 2, calls) + LAST_RISING


def own(count: int, locks: str = FIELDS, more: str = "") -> str:
    bodies = ["void f(final X x){x.g();}"] + [HELD.format(k, more) for k in range(1, count - count // 2)]
    return MAIN + locked(locks) + own_broom(count // 2, bodies) + CALLER


def own_more(count: int) -> str:
    return own(count, FIELDS[:-1], "x.g();")


def own_waves(count: int) -> str:
    bodies = [HELD.format(k, "x.g();" + f"x.s{k}();" * (k < WAVES)) for k in range(count - count // 2)]
    return MAIN + locked(FIELDS[:-1], rising_methods()) + own_broom(count // 2, bodies) + LAST_RISING


def waves(count: int) -> str:
    calls = ["x.g();" + f"x.s{k}();" * (k < WAVES) for k in range(count - count // 2)]
    return MAIN + locked(methods=rising_methods()) + broom(count // 2, calls) + LAST_RISING


def leaf_locks(count: int) -> str:
    ends = "".join(f"class e{k} extends c0{{{HELD.format(k, '')}}}\n" for k in range(1, count))
    calls = f"final X l=new X();final X x=new X();final c0 y=new c0();synchronized(l){{{'y.f(x);' * 12 * count}}}"
    return f"class Main{{void main(){{{calls}}}}}\nclass X{{}}class L{{}}class c0{{void f(final X x){{}}}}\n{ends}"


def threes(count: int) -> str:
    calls = ["x.g();" + f"x.s{k}();" * (k < WAVES) for k in reversed(range(count))]
    line = heirs(count, lambda k: "".join(f"void {name}(final X x){{{calls[k]}}}" for name in "fgh"))
    return MAIN + locked(methods=rising_methods()) + "".join(line) + LAST_RISING


def empty(count: int) -> str:
    return MAIN + "".join(heirs(count, lambda k: "void f(){}"))


def names(count: int) -> str:
    return MAIN + "".join(heirs(count, lambda k: "void f(){}void g(){}void h(){}"))


def pairs(count: int) -> str:
    methods = "".join(f"void f{k}(){{}}" for k in range(count))
    return MAIN + f"class C{{{methods}}}\n" + "".join(f"class C{k} extends C{{}}\n" for k in range(count))


def finals(count: int) -> str:
    return MAIN + "".join(heirs(count, lambda k: "final int a;" * (k == 0) + f"c{k}(int a){{this.a=a;}}"))


def fresh(count: int) -> str:
    return MAIN + "".join(heirs(count, lambda k: f"void f{k}(){{}}"))


def far(count: int) -> str:
    upper = (count + 1) // 2
    return MAIN + "".join(heirs(count, lambda k: f"void f{k % upper}(){{}}"))


def bad(count: int) -> str:
    return MAIN + "".join(heirs(count, lambda k: RESULT if k == count - 1 else "void f(){}"))


def all_bad(count: int) -> str:
    return MAIN + "".join(heirs(count, lambda k: RESULT if k else "void f(){}"))


def apart(count: int) -> str:
    other = "".join(f"int f{k}(){{return 1;}}" for k in range(count))
    return f"{fresh(count)}class C{{{other}}}\n"


def fields(count: int) -> str:
    return MAIN + "".join(heirs(count, lambda k: f"int a{k};"))


def named_often(count: int, member: str, body: str, more: Callable[[int], str] = lambda k: "") -> str:
    """Classes in a line, the first of which has this member, and a method with an object of the last."""
    line = heirs(count, lambda k: more(k) if k else member)
    return f"class Main{{void main(){{}}void all(final c{count - 1} x){{{body}}}}}\n" + "".join(line)


def calls(count: int) -> str:
    return named_often(count, "void f(){}", "x.f();" * (4 * count))


def reads(count: int) -> str:
    return named_often(count, "int a;", "x.a=1;" * (4 * count))


def gives(count: int) -> str:
    return named_often(count, "", "c0 y=null;" + "y=x;" * (6 * count))


def own_calls(count: int) -> str:
    return named_often(count, "void f(){}", "x.f();" * (4 * count), lambda k: f"void f{k}(){{}}")


def unknown(count: int) -> str:
    return named_often(count, "void f(){}", "x.f();" * (4 * count) + "x.g();")


def wide(count: int) -> str:
    methods = "".join(f"void f{k}(){{}}" for k in range(count))
    return MAIN + "".join(heirs(2, lambda k: methods))


def line(count: int) -> str:
    rest = (make_checked.overriding(f"C{k}", f"C{k - 1}" if k else "C", k) for k in range(count))
    return MAIN + make_checked.FIRST + "".join(rest)


def running(body: str, count: int, methods: str = "void f(){}", more: str = "") -> str:
    """Classes in a line, the first of which has these methods, and a main method with this body."""
    line = heirs(count, lambda k: methods * (k == 0))
    return f"class Main{{{more}void main(){{{body}}}}}\n" + "".join(line)


def deep(count: int) -> str:
    return running(f"final c0 x=new c{count - 1}();while(true){{{'x.f();' * 20}}}", count)


def at_places(body: str, count: int, places: int = 8) -> str:
    """The same with so many methods, and one of the main class that calls each of them."""
    methods = "".join(f"void f{k}(){{}}" for k in range(places))
    calls = "".join(f"x.f{k}();" for k in range(places))
    return running(body, count, methods, f"void all(final c0 x){{{calls}}}")


def crowd(count: int) -> str:
    some = range(max(0, count - 60), count)
    made = "".join(f"final c{k} x{k}=new c{k}();" for k in some)
    calls = "".join(f"this.all(x{k});" for k in some)
    return at_places(f"{made}while(true){{{calls}}}", count)


def called_on(some: range, count: int, places: int) -> str:
    calls = "".join(f"this.all(new c{k}());" for k in some)
    return at_places(f"while(true){{{calls}}}", count, places)


def firsts(count: int) -> str:
    return called_on(range(count // 2, count), count, 8)


def spread(count: int) -> str:
    return called_on(range(count // 2, count, max(1, count // 200)), count, 400)


RUN_FAMILIES: dict[str, Family] = {"deep": deep, "crowd": crowd, "firsts": firsts, "spread": spread}
FAMILIES: dict[str, Family] = {
    "overriding": overriding,
    "reverse": reverse,
    "rising": rising,
    "late": late,
    "mixed": mixed,
    "leaves": leaves,
    "own": own,
    "own_more": own_more,
    "waves": waves,
    "own_waves": own_waves,
    "masks": masks,
    "threes": threes,
    "empty": empty,
    "names": names,
    "pairs": pairs,
    "finals": finals,
    "fresh": fresh,
    "far": far,
    "wide": wide,
    "line": line,
    "bad": bad,
    "all_bad": all_bad,
    "apart": apart,
    "fields": fields,
    "calls": calls,
    "reads": reads,
    "gives": gives,
    "own_calls": own_calls,
    "unknown": unknown,
    "sets_calls": make_checked.sets_calls,
    "sets_rise": make_checked.sets_rise,
    "floors": make_checked.floors,
    "leaf_locks": leaf_locks,
    **RUN_FAMILIES,
}
