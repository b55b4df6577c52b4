"""Sources as Java that tells its visible steps, and waits for its turn before each (bench/jvm/Steps.java).

    stepping_of(source, head)         the text, with this in front of it

It is printed anew, with parentheses round each part. How Java reads signs shows in the text that `jvm_java` makes.
"""
from jvm_reading import Class, Method, Part, Source

STEPS = "jvm.Steps"


def stepping_of(source: Source, head: str) -> str:
    printer = Printer(source)
    return head + "\n".join(class_text(cls, printer) for cls in source.classes) + "\n"


def class_text(cls: Class, printer: "Printer") -> str:
    above = cls.above.name if cls.above else "jvm.Recorded"
    # a class that may be started says so itself, or one above it does
    runnable = " implements Runnable" if any(c.method_named("run") for c in cls.line()) and is_runnable(cls) else ""
    members = [f"{'final ' * f.final}{f.type} {f.name};" for f in cls.fields] + constructor(cls)
    members += [printer.method_text(m) for m in cls.methods]
    return f"class {cls.name} extends {above}{runnable} {{\n" + "\n".join(members) + "\n}"


def type_of(cls: Class, name: str) -> str:
    """The type of a field."""
    found = cls.field_named(name)
    assert found is not None, f"there is no field {name}"
    return found.type


def is_runnable(cls: Class) -> bool:
    """Whether its method `run` has the form that `Runnable` asks for."""
    run = cls.method_named("run")
    return run is not None and run.result == "void" and not run.parameters


def constructor(cls: Class) -> list[str]:
    finals = [f for f in cls.all_fields() if f.final]
    if not finals:
        return []
    params = ", ".join(f"{f.type} {f.name}" for f in finals)
    up = ", ".join(f.name for f in finals if f.owner is not cls)
    own = " ".join(f"this.{f.name} = {f.name};" for f in finals if f.owner is cls)
    return [f"{cls.name}({params}) {{ super({up}); {own} }}"]


class Printer:
    """Prints the methods of a source. Objects that `Steps` hands back are cast, which costs javac less than generic
    methods."""

    def __init__(self, source: Source) -> None:
        self.source = source
        self.method: Method = source.methods[0]
        # the types of the method's slots
        self.types: dict[int, str] = {}

    def method_text(self, method: Method) -> str:
        self.method = method
        self.types = {0: method.owner.name, **{slot: ty for slot, (_, ty, _) in enumerate(method.parameters, 1)}}
        self.types.update((part.slot, part.type) for part in method.body.all() if part.word == "local")
        params = ", ".join(f"{'final ' * final}{ty} {name}" for final, ty, name in method.parameters)
        body = f"{STEPS}.begin(); try {self.statement(method.body)} finally {{ {STEPS}.end(); }}"
        return f"public {method.result} {method.name}({params}) {{ {body} }}"

    # Statements.

    def statement(self, part: Part) -> str:
        word = part.word
        if word == "block":
            return "{ " + " ".join(self.statement(own) for own in part.parts) + " }"
        if word == "if":
            first, second = (self.statement(own) for own in part.parts[1:])
            return f"if ({self.expression(part.parts[0])}) {{ {first} }} else {{ {second} }}"
        if word == "while":
            return f"while ({self.expression(part.parts[0])}) {{ {self.statement(part.parts[1])} }}"
        if word == "sync":
            return self.synchronized(part)
        if word == "put":
            return self.written(part)
        return simple(part, [self.expression(own) for own in part.parts])

    def synchronized(self, part: Part) -> str:
        lock = part.lock[0]
        cls = self.source.by_name[self.types[part.slot]]
        for name in part.lock[1:]:
            ty = type_of(cls, name)
            lock, cls = got(lock, cls.name, name, ty), self.source.by_name[ty]
        inner = f"try {{ {STEPS}.acquired(); {self.statement(part.parts[0])} }}"
        fault = f"catch (Throwable $fault) {{ throw {STEPS}.park($fault); }}"
        return f"synchronized ({STEPS}.acquire({lock})) {{ {inner} {fault} finally {{ {STEPS}.release(); }} }}"

    def class_of(self, part: Part) -> Class:
        found = self.source.class_of(part, self.method)
        assert found is not None, "the expression has no class"
        return found

    def written(self, part: Part) -> str:
        receiver, value = part.parts
        cls = self.class_of(receiver)
        ty = type_of(cls, part.name)
        put = f'{STEPS}.put{KINDS.get(ty, "")}({self.expression(value)}, "{part.name}")'
        return f"(({cls.name}) {STEPS}.of({self.expression(receiver)})).{part.name} = {cast(ty, put)};"

    # Expressions.

    def expression(self, part: Part) -> str:
        word, values = part.word, [self.expression(own) for own in part.parts]
        if word == "lit":
            return f"({part.name})" if part.name.startswith("-") else part.name
        if word == "un":
            return f"({part.name}{values[0]})"
        if word in ("bin", "and", "or"):
            return f"({values[0]} {part.name} {values[1]})"
        if word == "get":
            cls = self.class_of(part.parts[0])
            return got(values[0], cls.name, part.name, type_of(cls, part.name))
        if word == "call":
            return f"{values[0]}.{part.name}({', '.join(values[1:])})"
        if word == "new":
            return f"new {part.name}({', '.join(values)})"
        return part.name


KINDS = {"int": "Int", "boolean": "Boolean"}


def cast(ty: str, value: str) -> str:
    return value if ty in KINDS else f"({ty}) {value}"


def got(receiver: str, owner: str, name: str, ty: str) -> str:
    """The reading of a field."""
    read = f'(({owner}) {STEPS}.get({receiver}, "{name}")).{name}'
    value = f"{STEPS}.got{KINDS.get(ty, '')}({read})"
    return value if ty in KINDS else f"(({ty}) {value})"


def simple(part: Part, values: list[str]) -> str:
    word = part.word
    if word == "local":
        return f"{'final ' * part.final}{part.type} {part.name} = {values[0]};"
    if word == "set":
        return f"{part.name} = {values[0]};"
    if word == "print":
        return f"System.out.println({STEPS}.print({values[0]}));"
    if word == "start":
        return f"new Thread({values[0]}).start();"
    if word == "return":
        return f"return {values[0]};" if values else "return;"
    return "".join(values) + ";"
