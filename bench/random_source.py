"""Random sources: programs of the grammar whose names and types mostly fit.

A Generator draws a program, but for a slip now and then where `slips` says so: a name that nothing declares, a wrong
type, an assigned final, a lock that is none. A calm one mostly takes a guard before it touches a guarded field, so
that many of its programs are accepted. With `extends` classes extend each other. `random_shapes` has programs of
other shapes.
"""
from __future__ import annotations

import random
from collections.abc import Callable, Sequence
from typing import Optional, TypeVar, Union

from random_parts import Class, Field, Method, Variable

__all__ = ["Class", "Generator", "renamed"]


# a text and what it stands for
Named = TypeVar("Named")


class Generator:
    def __init__(
        self,
        seed: Union[int, str],
        slips: float = 0.0,
        calm: bool = False,
        words: Sequence[str] = ("guarded_by",),
        extends: bool = False,
    ) -> None:
        self.random = random.Random(seed)
        self.slips, self.calm, self.words, self.extends = slips, calm, words, extends
        self.classes: list[Class] = []
        self.held: list[str] = []
        # of the method that is drawn: its class, what can be seen, and how many locals it has
        self.cls = Class("")
        self.scope: list[Variable] = []
        self.fresh = 0

    def slip(self) -> bool:
        return self.slips > 0 and self.random.random() < self.slips

    def some(self, chance: float) -> bool:
        return self.random.random() < chance

    def pick(self, items: Sequence[Named]) -> Named:
        return self.random.choice(items)

    # Declarations.

    def source(self) -> str:
        names = ["A", "B", "C", "D"][: self.random.randint(0, 4)] + ["Main"]
        self.random.shuffle(names)
        self.classes = [Class(name) for name in names]
        order = self.families()
        for cls in order:
            self.declare(cls)
        for cls in order:
            self.declare_locks(cls)
        text = " ".join(self.class_text(cls) for cls in self.classes)
        return text.replace("; ", ";\n").replace("} ", "}\n") if self.some(0.5) else text

    def families(self) -> list[Class]:
        """The classes, each behind the one that it extends."""
        order = list(self.classes)
        if self.extends:
            self.random.shuffle(order)
            for k, cls in enumerate(order):
                cls.above = self.pick(order[:k]) if k and self.some(0.7) else None
        return order

    def is_kind(self, ty: Optional[str], other: str) -> bool:
        """Whether the type is this one or a class below it."""
        cls = self.find(ty)
        return ty == other or cls is not None and any(c.name == other for c in cls.line())

    def type(self) -> str:
        if self.slip():
            return "Zz"
        return self.pick(["int", "boolean"] + [c.name for c in self.classes] * 2)

    def class_type(self) -> str:
        return self.pick([c.name for c in self.classes])

    def declare(self, cls: Class) -> None:
        is_main = any(c.name == "Main" for c in self.classes if cls in c.line())
        known = [] if self.slip() else [f.name for f in cls.all_fields()]
        names = [name for name in ["f", "g", "h", "v", "w", "r", "s"] if name not in known]
        for name in names[: self.random.randint(0, 5 if not known else 2)]:
            final = not is_main and self.some(0.4)
            cls.fields.append(Field(name, self.class_type() if final and self.some(0.8) else self.type(), final))
        inherited = {m.name: m for m in cls.all_methods()}
        for name in ["m", "n", "p", "q"][: self.random.randint(0, 4)]:
            cls.methods.append(
                self.overriding(inherited[name]) if name in inherited and not self.slip() else self.new_method(name)
            )
        cls.runnable = self.some(0.3)
        if cls.counts() and not self.slip() and ("run" not in inherited or self.some(0.4)):
            atomic = inherited["run"].atomic if "run" in inherited else self.is_atomic()
            cls.methods.append(Method("run", [], "void", atomic))
        if cls.name == "Main" and not self.slip():
            homes = [c for c in cls.line() if not any("main" in (m.name for m in d.methods) for d in c.line())]
            home = self.pick(homes) if self.some(0.3) else cls
            home.methods.append(Method("main", [], "void", self.is_atomic()))
        if self.slip() and cls.methods:
            cls.methods.append(self.pick(cls.methods))

    def is_atomic(self) -> bool:
        return self.some(0.15 if self.calm else 0.4)

    def new_method(self, name: str) -> Method:
        params = [(self.some(0.7), self.type(), "abc"[k]) for k in range(self.random.choice([0, 0, 1, 1, 2, 3]))]
        return Method(name, params, self.pick(["void", "void", self.type()]), self.is_atomic())

    def overriding(self, other: Method) -> Method:
        """A method that overrides this one, mostly with other names of its parameters."""
        letters = self.pick(["abc", "bca", "def"])
        params = [
            (final if not self.slip() else not final, ty, letters[k]) for k, (final, ty, _) in enumerate(other.params)
        ]
        return Method(other.name, params, other.result, other.atomic if not self.slip() else not other.atomic, other)

    def declare_locks(self, cls: Class) -> None:
        this: list[Variable] = [("this", True, cls.name)]
        for own in cls.fields:
            if not own.final and self.some(0.6):
                own.guard, own.word = self.lock(this), self.pick(self.words)
        for method in cls.methods:
            if method.over and not self.slip():
                names = {old: new for (_, _, old), (_, _, new) in zip(method.over.params, method.params)}
                method.requires = [renamed(lock, names) for lock in method.over.requires]
                self.random.shuffle(method.requires)
            elif method.name not in ("run", "main") and self.some(0.4):
                scope = this + [(name, final, ty) for final, ty, name in method.params]
                method.requires = [self.lock(scope) for _ in range(self.random.randint(1, 2))]

    def class_text(self, cls: Class) -> str:
        self.cls = cls
        members = [self.field_text(f) for f in cls.fields]
        if cls.finals() and not self.slip():
            params = ", ".join(f"{f.ty} {f.name}" for f in cls.finals())
            sets = " ".join(f"this.{f.name} = {f.name};" for f in cls.finals())
            members.insert(self.random.randint(0, len(members)), f"{cls.name}({params}) {{ {sets} }}")
        members += [self.method_text(m) for m in cls.methods]
        above = self.pick(self.classes + [Class("Zz")]) if self.extends and self.slip() else cls.above
        head = "public " * self.some(0.1) + "class " + cls.name + (f" extends {above.name}" if above else "")
        head += " implements Runnable" * cls.runnable
        return f"{head} {{ {' '.join(members)} }}"

    def field_text(self, own: Field) -> str:
        guard = f" {own.word} {own.guard}" if own.guard else ""
        return f"{'final ' * own.final}{own.ty} {own.name}{guard};"

    def method_text(self, method: Method) -> str:
        self.scope = [("this", True, self.cls.name)]
        self.scope += [(name, final, ty) for final, ty, name in method.params]
        self.fresh, self.held = 0, list(method.requires)
        requires = " requires " * bool(method.requires) + ", ".join(method.requires)
        body = self.statements(3)
        if method.result != "void" and not self.slip():
            body.append(f"return {self.expr(method.result, 2)};")
        params = ", ".join(f"{'final ' * final}{ty} {name}" for final, ty, name in method.params)
        head = (
            f"{'public ' * self.some(0.1)}{'atomic ' * method.atomic}{method.result} {method.name}({params}){requires}"
        )
        return f"{head} {{ {' '.join(body)} }}"

    # Names.

    def find(self, name: Optional[str]) -> Optional[Class]:
        return next((c for c in self.classes if c.name == name), None)

    def fields_of(self, name: str) -> list[Field]:
        found = self.find(name)
        return found.all_fields() if found else []

    def methods_of(self, name: str) -> list[Method]:
        found = self.find(name)
        return found.all_methods() if found else []

    def lock(self, scope: Sequence[Variable]) -> str:
        roots = [(n, ty) for n, final, ty in scope if (final or self.slip()) and self.find(ty)]
        if self.slip() or not roots:
            return self.pick(["zz", "this.zz", "this.f.f.f"])
        text, ty = self.pick(roots)
        for _ in range(self.pick([0, 0, 0, 1, 1, 2])):
            steps = [f for f in self.fields_of(ty) if f.final and self.find(f.ty)]
            if not steps:
                break
            step = self.pick(steps)
            text, ty = f"{text}.{step.name}", step.ty
        return text

    def local(self) -> str:
        self.fresh += 1
        return f"x{self.fresh}" if not self.slip() else self.pick(["a", "x1"])

    # Statements.

    def statements(self, depth: int) -> list[str]:
        mark = len(self.scope)
        body = [self.statement(depth) for _ in range(self.random.randint(0, 4))]
        del self.scope[mark:]
        return body

    def block(self, depth: int) -> str:
        return "{ " + " ".join(self.statements(depth)) + " }"

    def statement(self, depth: int) -> str:
        kind = self.random.randint(0, 15 if depth > 0 else 8)
        if kind <= 2:
            return self.assignment(depth)
        if kind <= 4:
            return self.declaration(depth)
        if kind <= 7:
            return (self.call_of(None, depth) or "") + ";"
        if kind == 8:
            return self.pick([";", f"System.out.println({self.expr('int', depth)});", self.start(depth)])
        if kind <= 10:
            then = self.pick([self.block(depth - 1), self.assignment(depth - 1)])
            other = self.pick(["", " else " + self.block(depth - 1)])
            return f"if ({self.expr('boolean', depth)}) {then}{other}"
        if kind == 11:
            condition = self.expr("boolean", depth)
            if condition.strip("()") == "true":
                condition = "!true"
            return f"while ({condition}) {self.block(depth - 1)}"
        if kind == 12 and self.slip():
            return self.pick(["return;", f"return {self.expr(self.type(), depth)};", "while (true) { }"])
        if kind == 12:
            return self.block(depth - 1)
        lock = self.wanted_lock() if self.calm and self.some(0.7) else self.lock(self.scope)
        self.held.append(lock)
        body = self.block(depth - 1)
        self.held.pop()
        return f"synchronized ({lock}) {body}"

    def wanted_lock(self) -> str:
        """The guard of some field at hand."""
        targets = self.fields(lambda f: f.guard, True)
        locks = [renamed(f.guard, {"this": text}) for text, f in targets if f.guard]
        known = [lock for lock in locks if self.is_lock(lock)]
        return self.pick(known) if known else self.lock(self.scope)

    def start(self, depth: int) -> str:
        runnable = [c.name for c in self.classes if c.counts() or self.slip()]
        value = self.value(self.pick(runnable), depth) if runnable else "null"
        return f"new Thread({value}).start();" if value != "null" or self.slip() else ";"

    def declaration(self, depth: int) -> str:
        final, ty, name = self.some(0.6), self.type(), self.local()
        value = self.path_of(ty) if final and self.some(0.6) else None
        text = f"{'final ' * final}{ty} {name} = {value or self.expr(ty, depth)};"
        self.scope.append((name, final, ty))
        return text

    def path_of(self, ty: str) -> Optional[str]:
        found = [lock for lock in (self.lock(self.scope) for _ in range(4)) if self.is_kind(self.type_of(lock), ty)]
        return found[0] if found else None

    def type_of(self, lock: str) -> Optional[str]:
        names = lock.split(".")
        ty = next((ty for n, _, ty in self.scope if n == names[0]), None)
        for name in names[1:]:
            cls = self.find(ty)
            ty = next((f.ty for f in cls.all_fields() if f.name == name), None) if cls else None
        return ty

    def is_lock(self, lock: str) -> bool:
        names = lock.split(".")
        fronts = [".".join(names[:k]) for k in range(1, len(names))]
        classes = [self.find(self.type_of(front)) for front in fronts]
        finals = [any(f.name == n and f.final for f in c.all_fields()) for c, n in zip(classes, names[1:]) if c]
        roots = [n for n, final, _ in self.scope if final]
        return names[0] in roots and len(names) <= 3 and all(finals) and self.find(self.type_of(lock)) is not None

    def assignment(self, depth: int) -> str:
        variables = [(n, ty) for n, final, ty in self.scope if not final or (n != "this" and self.slip())]
        if variables and self.some(0.3):
            name, ty = self.pick(variables)
            return f"{name} = {self.expr(ty, depth)};"
        targets = self.fields(lambda f: not f.final or self.slip())
        if not targets:
            return ";"
        text, own = self.pick(targets)
        return f"{text}.{own.name} = {self.expr(own.ty, depth)};"

    def receivers(self) -> list[tuple[str, str]]:
        found = [(n, ty) for n, _, ty in self.scope if self.find(ty)]
        more = []
        for text, ty in found:
            more += [(f"{text}.{f.name}", f.ty) for f in self.fields_of(ty) if self.find(f.ty)]
        return found + (more if self.some(0.4) else [])

    def fields(self, test: Callable[[Field], object], all_of_them: bool = False) -> list[tuple[str, Field]]:
        found = [(t, f) for t, ty in self.receivers() for f in self.fields_of(ty) if test(f)]
        if self.calm and not all_of_them and self.some(0.98):
            found = [(t, f) for t, f in found if not f.guard or renamed(f.guard, {"this": t}) in self.held]
        return found

    # Expressions.

    def args(self, types: list[str], depth: int) -> str:
        if self.slip():
            types = types[1:]
        return ", ".join(self.expr(ty, depth - 1) for ty in types)

    def call_of(self, result: Optional[str], depth: int) -> Optional[str]:
        calls = [
            (t, m)
            for t, ty in self.receivers()
            for m in self.methods_of(ty)
            if result is None or self.is_kind(m.result, result) or self.slip()
        ]
        if not calls:
            return None if result else "new Main()"
        text, method = self.pick(calls)
        paths = [self.path_of(ty) if final and self.some(0.5) else None for final, ty, _ in method.params]
        args = [path or self.expr(ty, depth - 1) for path, (_, ty, _) in zip(paths, method.params)]
        names = {"this": text, **{name: arg for arg, (_, _, name) in zip(args, method.params)}}
        if self.calm and not all(renamed(lock, names) in self.held for lock in method.requires):
            return None if result else "new Main()"
        return f"{text}.{'zz' if self.slip() else method.name}({', '.join(args)})"

    def expr(self, ty: str, depth: int) -> str:
        if self.slip():
            ty = self.type()
        if depth <= 0:
            return self.value(ty, 0)
        kind = self.random.randint(0, 9)
        if kind <= 3:
            return self.value(ty, depth)
        if kind <= 5:
            return self.call_of(ty, depth) or self.value(ty, depth)
        if kind == 6:
            return f"({self.expr(ty, depth - 1)})"
        if ty == "int":
            if self.some(0.2):
                return self.pick(["-2147483648", f"- {self.value('int', 0)}"])
            return f"{self.value(ty, 0)} {self.pick('+-*/%')} {self.expr(ty, depth - 1)}"
        if ty == "boolean":
            if self.some(0.2):
                return f"!{self.value('boolean', 0)}"
            if self.some(0.4):
                return f"{self.value(ty, 0)} {self.pick(['&&', '||', '==', '!='])} {self.expr(ty, depth - 1)}"
            other = self.pick(["int", self.class_type()])
            if self.some(0.4):
                return f"({self.value(other, 0)} {self.pick(['==', '!='])} {self.value(other, 0)})"
            return f"{self.value('int', 0)} {self.pick(['<', '<=', '>', '>='])} {self.value('int', 0)}"
        return self.value(ty, depth)

    def value(self, ty: str, depth: int) -> str:
        choices = [n for n, _, t in self.scope if self.is_kind(t, ty)]
        choices += [f"{t}.{f.name}" for t, f in self.fields(lambda f: self.is_kind(f.ty, ty))]
        if self.slip():
            return self.pick(["zz", "this.zz", "null", "7", "true", "this"])
        if choices and self.some(0.8):
            return self.pick(choices)
        if ty == "int":
            return str(self.pick([0, 1, 7, 10, 2147483647]))
        if ty == "boolean":
            return self.pick(["true", "false"])
        kinds = [c for c in self.classes if self.is_kind(c.name, ty)]
        if kinds and depth > 0 and self.some(0.5):
            cls = self.pick(kinds)
            return f"new {cls.name}({self.args([f.ty for f in cls.finals()], depth)})"
        return "null"


def renamed(lock: str, names: dict[str, str]) -> str:
    """The lock with its root replaced."""
    root, dot, fields = lock.partition(".")
    return names.get(root, root) + dot + fields
