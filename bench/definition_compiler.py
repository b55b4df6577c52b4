"""Makes Python of the clauses of definitions."""
from __future__ import annotations

from collections.abc import Callable
from typing import TYPE_CHECKING, Any, Optional

from definition_files import Definition, File
from definition_terms import Parser, Term, Unreadable
from definition_values import (
    OPS,
    STD_VALUES,
    Function,
    Record,
    Value,
    apply,
    bind,
    both,
    choose,
    either,
    field,
    from_list,
    no_clause,
    number,
    to_list,
    updated,
)

if TYPE_CHECKING:
    from definition_world import World

# what a name is: ("definition", file, definition), ("value", value) or ("constructor", name, the types of its
# arguments)
Meaning = tuple[Any, ...]
# the Python of each name that is bound
Names = dict[str, str]

KNOWN = {
    "apply": apply,
    "choose": choose,
    "both": both,
    "either": either,
    "bind": bind,
    "field": field,
    "updated": updated,
    "Record": Record,
    "Function": Function,
    "no_clause": no_clause,
    "OPS": OPS,
    "from_list": from_list,
    "number": number,
}


class Compiler:
    """Makes Python of the clauses of a definition."""

    def __init__(self, world: World, file: File, definition: Optional[Definition] = None) -> None:
        self.world, self.file, self.definition = world, file, definition
        # the names that the Python may use
        self.scope: dict[str, Any] = {**KNOWN, "used": world.used}
        self.count = 0

    def fresh(self, stem: str = "v") -> str:
        self.count += 1
        return f"{stem}{self.count}"

    def constant(self, value: Value) -> str:
        name = self.fresh("k")
        self.scope[name] = value
        return name

    def point(self, at: int, kind: str, what: Any) -> int:
        """The number of a place that a computation may pass."""
        return self.world.points.setdefault((self.file.path, at, kind, what), len(self.world.points))

    def module_names(self) -> list[str]:
        return [n for _, names in self.definition.modules for n, _ in names] if self.definition else []

    def definition_source(self, definition: Definition) -> tuple[int, str]:
        """The number of parameters, and the Python of a function `run` of these."""
        clauses = [(at, self.patterns(patterns), body) for at, patterns, body in definition.clauses]
        widths = {len(read) for _, read, _ in clauses}
        if len(widths) != 1:
            raise Unreadable(f"clauses of {definition.name}")
        width = widths.pop()
        outer = {n: self.fresh() for n in self.module_names()}
        parameters = list(outer.values()) + [self.fresh("a") for _ in range(width)]
        lines = [f"def run({', '.join(parameters)}):"]
        for at, read, body in clauses:
            env = dict(outer)
            tests: list[str] = []
            for pattern, parameter in zip(read, parameters[len(outer) :]):
                self.match(pattern, parameter, env, tests)
            lines.append(f"  if {' and '.join(tests) or 'True'}:")
            lines.append(f"    used.add({self.point(at, 'clause', definition.name)})")
            lines.append(f"    return {self.expression(Parser(body).whole(), env, at)}")
        lines.append(f"  return no_clause({', '.join([repr(definition.name)] + parameters)})")
        return width + len(outer), "\n".join(lines)

    def compiled(self, definition: Definition) -> Value:
        arity, source = self.definition_source(definition)
        exec(source, self.scope)
        run = self.scope["run"]
        if arity:
            return Function(arity, run)
        return run

    def patterns(self, text: str) -> list[Term]:
        parser = Parser(text)
        found: list[Term] = []
        while parser.at < len(parser.tokens):
            if parser.peek() == "{":
                parser.skip_braces()
                continue
            found.append(parser.atom())
        return found

    def is_constructor(self, name: str) -> Optional[Meaning]:
        try:
            what = self.world.lookup(self.file, name)
        except Unreadable:
            return None
        if what[0] == "constructor":
            return what
        if what[0] == "value" and not isinstance(what[1], Function):
            return what
        return None

    # Patterns: which tests hold of a value that fits, and what the names in it then are.

    def match(self, pattern: Term, value: str, env: Names, tests: list[str]) -> None:
        kind = pattern[0]
        if kind == "name":
            self.match_name(pattern[1], value, env, tests)
        elif kind == "field":
            tests.append(f"{value}[0] == {pattern[2]!r}")
        elif kind == "apply":
            self.match_constructor(pattern, value, env, tests)
        elif kind == "op" and pattern[1] == "∷":
            tests.append(f"{value}[0] == '∷'")
            self.match(pattern[2], f"{value}[1]", env, tests)
            self.match(pattern[3], f"{value}[2]", env, tests)
        elif kind == "pair":
            for at, part in enumerate(pattern[1]):
                self.match(part, f"{value}[{at + 1}]", env, tests)
        else:
            raise Unreadable(f"pattern {kind}")

    def match_name(self, name: str, value: str, env: Names, tests: list[str]) -> None:
        what = None if name == "_" else self.is_constructor(name)
        if name == "zero":
            tests.append(f"number({value}) == 0")
        elif what is None or (what[0] == "value" and name not in STD_VALUES):
            if name != "_":
                env[name] = value
        elif what[0] == "value":
            tests.append(f"{value} is {what[1]!r}" if isinstance(what[1], bool) else f"{value} == {what[1]!r}")
        else:
            tests.append(f"{value}[0] == {name!r}")

    def match_constructor(self, pattern: Term, value: str, env: Names, tests: list[str]) -> None:
        head, arguments = applied(pattern)
        name = head[2] if head[0] == "field" else head[1]
        if name == "suc":
            tests.append(f"number({value}) > 0")
            self.match(arguments[0], f"({value} - 1)", env, tests)
            return
        tests.append(f"{value}[0] == {name!r}")
        for at, argument in enumerate(arguments):
            self.match(argument, f"{value}[{at + 1}]", env, tests)

    # Terms, as Python.

    def reference(self, what: Meaning, env: Names) -> str:
        if what[0] == "constructor":
            return self.constant((what[1],))
        if what[0] == "value":
            return self.constant(what[1])
        _, file, definition = what
        mine = self.definition.modules if self.definition and file is self.file else []
        shared: list[str] = []
        for first, second in zip(mine, definition.modules):
            if first != second:
                break
            shared += [name for name, _ in first[1]]
        world = self.world
        name = self.fresh("d")
        self.scope[name] = lambda *arguments: world.call(file, definition, arguments)
        return f"{name}({', '.join(env[own] for own in shared)})"

    def expression(self, term: Term, env: Names, at: int) -> str:
        if term[0] not in EXPRESSIONS:
            raise Unreadable(term[0])
        return EXPRESSIONS[term[0]](self, term, env, at)

    def name(self, term: Term, env: Names, at: int) -> str:
        if term[1] in env:
            return env[term[1]]
        return self.reference(self.world.lookup(self.file, term[1]), env)

    def number(self, term: Term, env: Names, at: int) -> str:
        return str(term[1])

    def string(self, term: Term, env: Names, at: int) -> str:
        return self.constant(to_list(list(term[1].encode())))

    def application(self, term: Term, env: Names, at: int) -> str:
        head, arguments = applied(term)
        return f"apply({', '.join(self.expression(part, env, at) for part in [head, *arguments])})"

    def operator(self, term: Term, env: Names, at: int) -> str:
        sign, left, right = term[1], self.expression(term[2], env, at), self.expression(term[3], env, at)
        if sign == "&&":
            return f"both({left}, lambda: {right})"
        if sign == "||":
            return f"either({left}, lambda: {right})"
        if sign == ">>=":
            return f"bind({left}, {right})"
        if sign == "≡":
            raise Unreadable("an equation as a value")
        return f"OPS[{sign!r}]({left}, {right})"

    def choice(self, term: Term, env: Names, at: int) -> str:
        test, first, second = (self.expression(part, env, at) for part in term[1:])
        place = self.point(at, "then", self.count)
        other = self.point(at, "else", self.count)
        self.count += 1
        return f"choose({test}, lambda: used.add({place}) or {first}, lambda: used.add({other}) or {second})"

    def function(self, term: Term, env: Names, at: int) -> str:
        inner, names = dict(env), []
        for own in term[1]:
            inner[own] = self.fresh()
            names.append(inner[own])
        return f"Function({len(names)}, lambda {', '.join(names)}: {self.expression(term[2], inner, at)})"

    def let(self, term: Term, env: Names, at: int) -> str:
        inner = {**env, term[1]: self.fresh()}
        value = self.expression(term[3], inner, at)
        return f"(lambda {inner[term[1]]}: {value})({self.expression(term[2], env, at)})"

    def pair(self, term: Term, env: Names, at: int) -> str:
        return f"('×', {', '.join(self.expression(part, env, at) for part in term[1])})"

    def record(self, term: Term, env: Names, at: int) -> str:
        base = "None" if term[1] is None else self.expression(term[1], env, at)
        fields = ", ".join(f"{name!r}: {self.expression(part, env, at)}" for name, part in term[2])
        return f"updated({base}, {{{fields}}})"

    def field(self, term: Term, env: Names, at: int) -> str:
        base = term[1]
        if base[0] == "name" and base[1] not in env and base[1] in self.file.aliases:
            return self.reference(self.world.outside(self.file.aliases[base[1]], term[2]), env)
        return f"field({self.expression(base, env, at)}, {term[2]!r})"


EXPRESSIONS: dict[str, Callable[[Compiler, Term, Names, int], str]] = {
    "name": Compiler.name,
    "number": Compiler.number,
    "string": Compiler.string,
    "apply": Compiler.application,
    "op": Compiler.operator,
    "if": Compiler.choice,
    "lambda": Compiler.function,
    "let": Compiler.let,
    "pair": Compiler.pair,
    "record": Compiler.record,
    "field": Compiler.field,
}


def applied(term: Term) -> tuple[Term, list[Term]]:
    """What is applied, and to what."""
    arguments: list[Term] = []
    while term[0] == "apply":
        arguments.insert(0, term[2])
        term = term[1]
    return term, arguments
