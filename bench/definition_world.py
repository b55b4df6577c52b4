"""All definitions of a checkout, read and compiled as they are needed."""
from __future__ import annotations

import re
from pathlib import Path
from typing import Any, Optional

from definition_compiler import Compiler, Meaning
from definition_files import Definition, File, read_antt
from definition_terms import Stuck, Unreadable
from definition_values import NIL, STD, STD_VALUES, Function, Value, apply

TOP = Path(__file__).resolve().parent.parent
# a file, a line, what kind of place it is, and of what
Point = tuple[Path, int, str, Any]


class World:
    """All definitions of a checkout, compiled as they are needed. `lies` has texts that stand in for files."""

    def __init__(self, top: Path = TOP, lies: Optional[dict[Path, str]] = None) -> None:
        self.top, self.lies = top, lies or {}
        self.files: dict[str, Optional[File]] = {}
        self.constants: dict[str, Optional[int]] = {}
        # the places that a computation may pass, with their numbers, and those that it passed
        self.points: dict[Point, int] = {}
        self.used: set[int] = set()
        self.steps = 0
        self.most_steps: Optional[int] = None

    def file(self, module: str) -> Optional[File]:
        if module not in self.files:
            parts = module.split(".")
            found = None
            if parts[0] == "Rattle" and len(parts) > 2 and parts[2] == "specs":
                path = self.top / "crates" / parts[1] / "specs" / ("/".join(parts[3:]) + ".antt")
                if path in self.lies:
                    found = read_antt(path, self.lies[path])
                elif path.is_file():
                    found = read_antt(path, path.read_text())
            self.files[module] = found
        return self.files[module]

    def constant(self, module: str, name: str) -> int:
        if name not in self.constants:
            crate = module.split(".")[1]
            value: Optional[int] = None
            for path in (self.top / "crates" / crate / "src").glob("*.rt"):
                match = re.search(rf"(?m)^(?:pub(?:\(crate\))? )?const {name}: \w+ = ([^;]+);", path.read_text())
                if match:
                    value = int(eval(match.group(1)))
            self.constants[name] = value
        found = self.constants[name]
        if found is None:
            raise Unreadable(f"constant {name}")
        return found

    def outside(self, module: str, name: str) -> Meaning:
        """What a name of a module is."""
        if module.endswith(".TheVariants"):
            return ("constructor", name)
        if module.endswith(".TheConstants"):
            return ("value", self.constant(module, name))
        if module.startswith(("Rattle.std.", "Rattle.core.", "lib.", "Prim")):
            return self.std(name)
        file = self.file(module)
        if file is None:
            raise Unreadable(f"{module}.{name}")
        meaning = self.within(file, name)
        if meaning is not None:
            return meaning
        raise Unreadable(f"{module}.{name}")

    def within(self, file: File, name: str) -> Optional[Meaning]:
        """What a name means that a file defines or takes from another, None where it does neither."""
        if name in file.definitions:
            return ("definition", file, file.definitions[name])
        if name in file.constructors:
            return ("constructor", name, file.constructors[name])
        if name in file.names:
            return self.outside(*file.names[name])
        return None

    def std(self, name: str) -> Meaning:
        if name in STD_VALUES:
            return ("value", STD_VALUES[name])
        if name in STD:
            arity, run = STD[name]
            return ("value", run() if arity == 0 else Function(arity, run))
        if name[:1].isupper() or name in ("pos", "negsuc", "tt", "inl", "inr", "refl"):
            return ("constructor", name)
        if name == "if◌then◌else◌":
            return ("value", None)
        raise Unreadable(f"std has {name}")

    def lookup(self, file: File, name: str) -> Meaning:
        meaning = self.within(file, name)
        if meaning is not None:
            return meaning
        if name in ("tt",):
            return ("constructor", name)
        if name == "[]":
            return ("value", NIL)
        raise Unreadable(name)

    def function(self, file: File, definition: Definition) -> Value:
        """The compiled definition: a Function of the parameters of its modules and of its clauses' patterns, or a
        value."""
        if definition.function is None:
            definition.function = Compiler(self, file, definition).compiled(definition)
        return definition.function

    def call(self, file: File, definition: Definition, arguments: tuple[Value, ...]) -> Value:
        self.steps += 1
        if self.most_steps is not None and self.steps > self.most_steps:
            raise Stuck("too many steps")
        function = self.function(file, definition)
        if isinstance(function, Function):
            return apply(function, *arguments)
        value = function()
        return apply(value, *arguments) if arguments else value
