"""What definitions compute: numbers, booleans, (constructor, ..), records, lists, maps and functions; and what std
gives."""
from __future__ import annotations

from collections.abc import Callable, Iterable
from typing import Any, Optional

from definition_terms import Stuck

# a value: a number, a boolean, a tuple that begins with its constructor, a record, a map or a function
Value = Any


class Record(dict[str, Any]):
    __slots__ = ()


class Function:
    __slots__ = ("arity", "run", "given")

    def __init__(self, arity: int, run: Callable[..., Value], given: tuple[Value, ...] = ()) -> None:
        self.arity, self.run, self.given = arity, run, given


def apply(function: Value, *arguments: Value) -> Value:
    for at, argument in enumerate(arguments):
        if isinstance(function, Function):
            given = function.given + (argument,)
            function = (
                function.run(*given) if len(given) == function.arity else Function(function.arity, function.run, given)
            )
        elif isinstance(function, tuple) and function and isinstance(function[0], str) and function[0] != "?":
            function = function + (argument,)
        else:
            raise Stuck("no function")
    return function


NIL = ("[]",)
NONE = ("None",)
UNIT = ("tt",)


def to_list(items: list[Value]) -> Value:
    found: Value = NIL
    for item in reversed(items):
        found = ("∷", item, found)
    return found


def from_list(value: Value) -> list[Value]:
    found = []
    while value != NIL:
        if not isinstance(value, tuple) or value[0] != "∷":
            raise Stuck("no list")
        found.append(value[1])
        value = value[2]
    return found


def truth(value: Value) -> bool:
    if isinstance(value, bool):
        return value
    raise Stuck("no boolean")


def number(value: Value) -> int:
    if isinstance(value, int) and not isinstance(value, bool):
        return value
    raise Stuck("no number")


def some(value: Value) -> Value:
    return NONE if value is None else ("Some", value)


def to_int(value: Value) -> int:
    if value[0] == "pos":
        return number(value[1])
    if value[0] == "negsuc":
        return -1 - number(value[1])
    raise Stuck("no integer")


def from_int(n: int) -> Value:
    return ("pos", n) if n >= 0 else ("negsuc", -1 - n)


def wrapped(n: int) -> Value:
    n &= 0xFFFFFFFF
    return from_int(n - (1 << 32) if n >> 31 else n)


def quotient(a: int, b: int) -> int:
    if b == 0:
        return 0
    q = abs(a) // abs(b)
    return q if (a < 0) == (b < 0) else -q


def ordering(a: int, b: int) -> Value:
    return ("Less",) if a < b else (("Greater",) if b < a else ("Equal",))


def compare_lists(compare: Value, xs: list[Value], ys: list[Value]) -> Value:
    for x, y in zip(xs, ys):
        o = apply(compare, x, y)
        if o != ("Equal",):
            return o
    return ordering(len(xs), len(ys))


class Map:
    """A map by the order of addresses, as sorted entries."""

    __slots__ = ("entries",)

    def __init__(self, entries: Iterable[tuple[Value, Value]]) -> None:
        self.entries = tuple(sorted(entries, key=lambda e: Map.key(e[0])))

    @staticmethod
    def key(a: Value) -> tuple[int, int]:
        return (a["thread"], a["count"])

    def __eq__(self, other: object) -> bool:
        return isinstance(other, Map) and self.entries == other.entries

    def get(self, a: Value) -> Value:
        return next((v for k, v in self.entries if k == a), None)

    def without(self, a: Value) -> list[tuple[Value, Value]]:
        return [e for e in self.entries if e[0] != a]


def map_from(items: Value) -> Map:
    found = Map([])
    for pair in from_list(items):
        found = Map(found.without(pair[1]) + [(pair[1], pair[2])])
    return found


def digits(n: Value) -> Value:
    return to_list([ord(c) for c in str(number(n))])


def one(f: Value, *xs: Value) -> bool:
    return truth(apply(f, *xs))


def unwrap(o: Value, default: Value) -> Value:
    return o[1] if o[0] == "Some" else default


def then(f: Value, o: Value) -> Value:
    return apply(f, o[1]) if o[0] == "Some" else NONE


def position(f: Value, xs: Value) -> Value:
    return some(next((i for i, x in enumerate(from_list(xs)) if one(f, x)), None))


def item(xs: Value, i: Value) -> Value:
    items = from_list(xs)
    return some(items[number(i)] if number(i) < len(items) else None)


def set_item(xs: Value, i: Value, x: Value) -> Value:
    items = from_list(xs)
    if i < len(items):
        items[i] = x
    return to_list(items)


def prefix(f: Value, xs: list[Value]) -> int:
    count = 0
    for x in xs:
        if not one(f, x):
            break
        count += 1
    return count


def digits_value(base: Value, ds: Value) -> int:
    value = 0
    for d in from_list(ds):
        value = value * base + (d - 48)
    return value


def option_case(o: Value) -> Value:
    if o[0] not in ("Some", "None"):
        raise Stuck("no option")
    return o


def filter_map(f: Value, xs: Value) -> Value:
    found = (option_case(apply(f, x)) for x in from_list(xs))
    return to_list([o[1] for o in found if o[0] == "Some"])


def find(f: Value, xs: Value) -> Value:
    return next((("Some", x) for x in from_list(xs) if one(f, x)), NONE)


def pointwise(f: Value, xs: Value, ys: Value) -> bool:
    first, second = from_list(xs), from_list(ys)
    return len(first) == len(second) and all(one(f, x, y) for x, y in zip(first, second))


def join_with_byte(byte: Value, xss: Value) -> Value:
    found: list[Value] = []
    for place, xs in enumerate(from_list(xss)):
        found += ([byte] if place else []) + from_list(xs)
    return to_list(found)


STD: dict[str, tuple[int, Callable[..., Value]]] = {
    "length": (1, lambda xs: len(from_list(xs))),
    "map": (2, lambda f, xs: to_list([apply(f, x) for x in from_list(xs)])),
    "filter": (2, lambda f, xs: to_list([x for x in from_list(xs) if one(f, x)])),
    "flat_map": (2, lambda f, xs: to_list([y for x in from_list(xs) for y in from_list(apply(f, x))])),
    "filter_map": (2, filter_map),
    "find": (2, find),
    "list_any": (2, lambda f, xs: any(one(f, x) for x in from_list(xs))),
    "list_all": (2, lambda f, xs: all(one(f, x) for x in from_list(xs))),
    "position": (2, position),
    "reverse": (1, lambda xs: to_list(from_list(xs)[::-1])),
    "replicate": (2, lambda n, x: to_list([x] * number(n))),
    "take": (2, lambda n, xs: to_list(from_list(xs)[: number(n)])),
    "drop": (2, lambda n, xs: to_list(from_list(xs)[number(n) :])),
    "take_while": (2, lambda f, xs: to_list(from_list(xs)[: prefix(f, from_list(xs))])),
    "prefix_len": (2, lambda f, xs: prefix(f, from_list(xs))),
    "suffix_len": (2, lambda f, xs: prefix(f, from_list(xs)[::-1])),
    "slice_get": (2, item),
    "slice_set": (3, set_item),
    "count_by": (2, lambda f, xs: sum(one(f, x) for x in from_list(xs))),
    "sum_by": (2, lambda f, xs: sum(number(apply(f, x)) for x in from_list(xs))),
    "sum": (1, lambda xs: sum(map(number, from_list(xs)))),
    "fold": (3, lambda f, start, xs: fold(f, start, from_list(xs))),
    "zip": (2, lambda xs, ys: to_list([("×", x, y) for x, y in zip(from_list(xs), from_list(ys))])),
    "range_with_len": (2, lambda a, n: to_list(list(range(a, a + n)))),
    "nat_le": (2, lambda a, b: number(a) <= number(b)),
    "nat_lt": (2, lambda a, b: number(a) < number(b)),
    "nat_eq": (2, lambda a, b: number(a) == number(b)),
    "nat_cmp": (2, lambda a, b: ordering(number(a), number(b))),
    "max": (2, lambda a, b: max(number(a), number(b))),
    "min": (2, lambda a, b: min(number(a), number(b))),
    "not": (1, lambda b: not truth(b)),
    "is_some": (1, lambda o: option_case(o)[0] == "Some"),
    "is_none": (1, lambda o: option_case(o)[0] == "None"),
    "option_map": (2, lambda f, o: ("Some", apply(f, o[1])) if option_case(o)[0] == "Some" else NONE),
    "option_and_then": (2, lambda f, o: then(f, option_case(o))),
    "option_or": (2, lambda o, p: o if option_case(o)[0] == "Some" else p),
    "ok_or": (2, lambda o, e: ("Ok", o[1]) if option_case(o)[0] == "Some" else ("Err", e)),
    "unwrap_or": (2, lambda o, d: unwrap(option_case(o), d)),
    "codes": (1, lambda s: s),
    "bytes_eq": (2, lambda a, b: from_list(a) == from_list(b)),
    "decimal": (1, digits),
    "digits_value": (2, digits_value),
    "is_ascii_digit": (1, lambda c: 48 <= c <= 57),
    "slice_cmp": (3, lambda c, xs, ys: compare_lists(c, from_list(xs), from_list(ys))),
    "pointwise": (3, pointwise),
    "ordering_then": (2, lambda a, b: b if a == ("Equal",) else a),
    "int_lt": (2, lambda a, b: to_int(a) < to_int(b)),
    "int_eq": (2, lambda a, b: to_int(a) == to_int(b)),
    "int_rem": (2, lambda a, b: from_int(to_int(a) - quotient(to_int(a), to_int(b)) * to_int(b))),
    "neg_ℤ": (1, lambda a: from_int(-to_int(a))),
    "int_wrapping_add": (3, lambda w, a, b: wrapped(to_int(a) + to_int(b))),
    "int_wrapping_sub": (3, lambda w, a, b: wrapped(to_int(a) - to_int(b))),
    "int_wrapping_mul": (3, lambda w, a, b: wrapped(to_int(a) * to_int(b))),
    "int_wrapping_div": (3, lambda w, a, b: wrapped(quotient(to_int(a), to_int(b)))),
    "int_wrapping_neg": (2, lambda w, a: wrapped(-to_int(a))),
    "signed_decimal": (1, lambda a: to_list([ord(c) for c in str(to_int(a))])),
    "join_with_byte": (2, join_with_byte),
    "suc": (1, lambda n: number(n) + 1),
    # maps
    "from_sorted": (1, map_from),
    "insert": (3, lambda m, a, x: Map(m.without(a) + [(a, x)])),
    "remove": (2, lambda m, a: Map(m.without(a))),
    "get": (2, lambda m, a: some(m.get(a))),
    "keys": (1, lambda m: to_list([k for k, v in m.entries])),
    "entries": (1, lambda m: to_list([("×", k, v) for k, v in m.entries])),
    "empty": (0, lambda: Map([])),
}
STD_VALUES: dict[str, Value] = {"true": True, "false": False, "zero": 0, "w32": ("w32",), "[]": NIL}


def fold(f: Value, start: Value, xs: list[Value]) -> Value:
    for x in xs:
        start = apply(f, start, x)
    return start


def joined(a: Value, b: Value) -> Value:
    return to_list(from_list(a) + from_list(b))


OPS: dict[str, Callable[[Value, Value], Value]] = {
    "==": lambda a, b: number(a) == number(b),
    "∷": lambda a, b: ("∷", a, b),
    "++": joined,
    "+": lambda a, b: number(a) + number(b),
    "-": lambda a, b: max(0, number(a) - number(b)),
    "*": lambda a, b: number(a) * number(b),
    "^": lambda a, b: number(a) ** number(b),
}


def choose(test: Value, first: Callable[[], Value], second: Callable[[], Value]) -> Value:
    if test is True:
        return first()
    if test is False:
        return second()
    raise Stuck("no boolean")


def both(first: Value, second: Callable[[], Value]) -> bool:
    return truth(second()) if truth(first) else False


def either(first: Value, second: Callable[[], Value]) -> bool:
    return True if truth(first) else truth(second())


def bind(read: Value, following: Value) -> Value:
    """What is read, and then the next part: `◌>>=◌` of books, which isn't read as a definition."""
    if read[0] == "Ok":
        return apply(following, read[1][1], read[1][2])
    if read[0] == "Err":
        return read
    raise Stuck("no result")


def field(value: Value, name: str) -> Value:
    if isinstance(value, Record):
        if name not in value:
            raise Stuck(f"no field {name}")
        return value[name]
    if name.isdigit() and isinstance(value, tuple) and value[0] == "×":
        return value[1 + int(name)]
    raise Stuck(f"no field {name}")


def updated(value: Optional[Value], more: dict[str, Value]) -> Record:
    if value is not None and not isinstance(value, Record):
        raise Stuck("no record")
    found = Record(value or {})
    found.update(more)
    return found


def no_clause(name: str, *arguments: Value) -> Value:
    """What a function gives of arguments that no clause fits: itself, where one of them isn't known."""
    if any(isinstance(a, tuple) and a and a[0] == "?" for a in arguments):
        return ("?", name, *arguments)
    raise Stuck(f"no clause of {name}")
