"""Reads the tokens of a source by the grammar (docs/language.md).

    Reader(text).program()         the classes of a text, one character for each byte

Only what the program takes for a program is read; what isn't one ends in `Unread`. Nothing here judges.
"""
from __future__ import annotations

import re
from collections.abc import Callable
from typing import Optional, TypeVar

from .parts import Class, Field, Method, Part, Variable

BLANKS = r"(?:[ \t\r\n\f]+|//[^\r\n]*|/\*.*?\*/)*"
SIGNS = r"==|!=|<=|>=|--|&&|\|\||[(){};,.=<>+\-*/%!]"
TOKEN = re.compile(BLANKS + r"([A-Za-z_]\w*|0|[1-9]\d*|" + SIGNS + r"|\Z)", re.ASCII | re.DOTALL)
NAME = re.compile(r"[A-Za-z_]")
LEVELS = [["||"], ["&&"], ["==", "!="], ["<", "<=", ">", ">="], ["+", "-"], ["*", "/", "%"]]
WORDS = {"||": "or", "&&": "and"}
CONSTANTS = ("true", "false", "null")

Read = TypeVar("Read")
# the variables that can be seen: whether each is final, its type and its slot
Scope = dict[str, tuple[bool, str, int]]


class Unread(Exception):
    """The text is no program of the language, or one that this reader doesn't know."""


class Tokens:
    """The tokens of a text, and the one that is looked at."""

    def __init__(self, text: str) -> None:
        self.tokens: list[str] = []
        self.begins: list[int] = []
        self.place = 0
        place = 0
        while not self.tokens or self.tokens[-1]:
            found = TOKEN.match(text, place)
            if not found:
                raise Unread(f"byte {place} begins no token")
            self.tokens.append(found[1])
            self.begins.append(found.start(1))
            place = found.end()

    def token(self, more: int = 0) -> str:
        """The next token, or one behind it."""
        return self.tokens[min(self.place + more, len(self.tokens) - 1)]

    def sees(self, *texts: str) -> bool:
        """Whether these are the next tokens."""
        return self.tokens[self.place : self.place + len(texts)] == list(texts)

    def take(self, *texts: str) -> str:
        """The next token, which is this one if one is named; of several the first."""
        taken = self.token()
        for text in texts or [taken]:
            if taken == "" or self.token() != text:
                raise Unread(f"byte {self.here()}: no {text or 'more text'}")
            self.place += 1
        return taken

    def skip(self, text: str) -> bool:
        found = self.sees(text)
        self.place += found
        return found

    def here(self) -> int:
        return self.begins[min(self.place, len(self.begins) - 1)]

    def behind(self) -> int:
        """The end of the last token."""
        return self.begins[self.place - 1] + len(self.tokens[self.place - 1])

    def until(self, closing: str, one: Callable[[], Read]) -> list[Read]:
        """What `one` reads, with commas between, up to a sign."""
        found: list[Read] = []
        while not self.skip(closing):
            if found:
                self.take(",")
            found.append(one())
        return found

    def lock(self) -> list[str]:
        """The names of a lock."""
        names = [self.take()]
        while self.skip("."):
            names.append(self.take())
        return names


class Expressions(Tokens):
    """Reads expressions, where these variables can be seen."""

    def __init__(self, text: str) -> None:
        super().__init__(text)
        self.scopes: list[Scope] = []

    def expression(self, level: int = 0) -> Part:
        if level == len(LEVELS):
            return self.unary()
        begin, left = self.here(), self.expression(level + 1)
        while self.token() in LEVELS[level]:
            at, sign = self.here(), self.take()
            left = Part(WORDS.get(sign, "bin"), begin, [left, self.expression(level + 1)], at, sign)
            left.end = self.behind()
        return left

    def unary(self) -> Part:
        begin = self.here()
        if self.sees("-", "2147483648"):
            self.take("-", "2147483648")
            part = Part("lit", begin, name="-2147483648")
        elif self.token() in ("!", "-"):
            part = Part("un", begin, name=self.take())
            part.parts.append(self.unary())
        else:
            return self.postfix()
        part.end = self.behind()
        return part

    def postfix(self) -> Part:
        begin, part = self.here(), self.primary()
        while self.skip("."):
            at, name = self.here(), self.take()
            if self.skip("("):
                part = Part("call", begin, [part] + self.until(")", self.expression), at, name)
            else:
                part = Part("get", begin, [part], at, name)
            part.end = self.behind()
        return part

    def primary(self) -> Part:
        begin, text = self.here(), self.take()
        if text == "(":
            part = self.expression()
            self.take(")")
            return part
        if text == "new":
            name = self.take()
            self.take("(")
            part = Part("new", begin, self.until(")", self.expression), name=name)
        else:
            part = Part("this" if text == "this" else "lit", begin, name=text)
            if NAME.match(text) and text != "this" and text not in CONSTANTS:
                part.word = "var"
                part.final, part.type, part.slot = self.found(text)
        part.end = self.behind()
        return part

    def found(self, name: str) -> tuple[bool, str, int]:
        """Whether a variable is final, its type and its slot."""
        scope = next((scope for scope in reversed(self.scopes) if name in scope), None)
        if scope is None:
            raise Unread(f"byte {self.here()}: no {name}")
        return scope[name]

    def slot_of(self, name: str) -> int:
        return 0 if name == "this" else self.found(name)[2]


class Statements(Expressions):
    """Reads the statements of one method after the other; `slots` are the names of the present one's variables."""

    def __init__(self, text: str) -> None:
        super().__init__(text)
        self.slots: list[str] = []

    def block(self) -> Part:
        block = Part("block", self.here())
        self.take("{")
        self.scopes.append({})
        while not self.skip("}"):
            block.parts.append(self.statement())
        self.scopes.pop()
        block.end = self.behind()
        return block

    def statement(self) -> Part:
        begin = self.here()
        read = STARTS.get(self.token(), Statements.plain)
        part = read(self, begin)
        part.end = self.behind()
        return part

    def inner_block(self, begin: int) -> Part:
        return self.block()

    def empty(self, begin: int) -> Part:
        self.take(";")
        return Part("skip", begin)

    def if_(self, begin: int) -> Part:
        self.take("if", "(")
        condition = self.expression()
        self.take(")")
        part = Part("if", begin, [condition, self.statement()])
        part.has_else = self.skip("else")
        part.parts.append(self.statement() if part.has_else else Part("skip", begin))
        return part

    def while_(self, begin: int) -> Part:
        self.take("while", "(")
        condition = self.expression()
        self.take(")")
        return Part("while", begin, [condition, self.statement()])

    def synchronized(self, begin: int) -> Part:
        self.take("synchronized", "(")
        lock = self.lock()
        self.take(")")
        part = Part("sync", begin)
        part.lock, part.slot = lock, self.slot_of(lock[0])
        part.parts.append(self.block())
        return part

    def return_(self, begin: int) -> Part:
        self.take("return")
        parts = [] if self.sees(";") else [self.expression()]
        self.take(";")
        return Part("return", begin, parts)

    def print_(self, begin: int) -> Part:
        self.take("System", ".", "out", ".", "println", "(")
        part = Part("print", begin, [self.expression()])
        self.take(")", ";")
        return part

    def new_statement(self, begin: int) -> Part:
        if not self.sees("new", "Thread"):
            return self.plain(begin)
        self.take("new", "Thread", "(")
        part = Part("start", begin, [self.expression()])
        self.take(")", ".", "start", "(", ")", ";")
        return part

    def is_declaration(self) -> bool:
        if self.token() in ("final", "int", "boolean"):
            return True
        return bool(NAME.match(self.token(1))) and self.token() not in ("new", "this", "(")

    def plain(self, begin: int) -> Part:
        """A declaration, an assignment, or an expression that stands as a statement."""
        if self.is_declaration():
            return self.declaration(begin)
        target = self.postfix()
        at = self.here()
        if not self.skip("="):
            self.take(";")
            return Part("do", begin, [target])
        value = self.expression()
        self.take(";")
        if target.word == "get":
            return Part("put", begin, [target.parts[0], value], target.at, target.name)
        part = Part("set", begin, [value], at, target.name)
        part.slot = target.slot
        return part

    def declaration(self, begin: int) -> Part:
        final, type_, at = self.skip("final"), self.take(), self.here()
        name = self.take()
        self.take("=")
        part = Part("local", begin, [self.expression()], at, name)
        self.take(";")
        part.final, part.type, part.slot = final, type_, len(self.slots)
        self.slots.append(name)
        self.scopes[-1][name] = (final, type_, part.slot)
        return part


STARTS: dict[str, Callable[[Statements, int], Part]] = {
    "{": Statements.inner_block,
    ";": Statements.empty,
    "if": Statements.if_,
    "while": Statements.while_,
    "synchronized": Statements.synchronized,
    "return": Statements.return_,
    "System": Statements.print_,
    "new": Statements.new_statement,
}


class Reader(Statements):
    """Reads classes and their members."""

    def program(self) -> list[Class]:
        classes = []
        while not self.sees(""):
            classes.append(self.class_())
        return classes

    def class_(self) -> Class:
        self.skip("public")
        self.take("class")
        at = self.here()
        made = Class(self.take(), self.take() if self.skip("extends") else "", at)
        if self.skip("implements"):
            self.take("Runnable")
        self.take("{")
        while not self.skip("}"):
            self.member(made)
        made.end = self.behind()
        return made

    def member(self, owner: Class) -> None:
        begin = self.here()
        self.skip("public")
        if self.skip("final"):
            self.field(owner, True)
        elif self.token(1) == "(":
            self.constructor()
        elif self.sees("atomic") or self.token(2) == "(":
            self.method(owner, begin)
        else:
            self.field(owner, False)

    def field(self, owner: Class, final: bool) -> None:
        type_, at = self.take(), self.here()
        name, guard, writes_only = self.take(), [], False
        if not final and not self.sees(";"):
            writes_only = self.take() == "write_guarded_by"
            guard = self.lock()
        self.take(";")
        owner.fields.append(Field(owner, name, type_, final, guard, writes_only, at))

    def constructor(self) -> None:
        self.take()
        self.take("(")
        self.until(")", self.parameter)
        self.take("{")
        while not self.skip("}"):
            self.take()

    def parameter(self) -> Variable:
        return Variable(self.skip("final"), self.take(), self.take())

    def method(self, owner: Class, begin: int) -> None:
        atomic_at: Optional[int] = self.here() if self.sees("atomic") else None
        self.skip("atomic")
        result, at = self.take(), self.here()
        name = self.take()
        self.take("(")
        parameters = self.until(")", self.parameter)
        requires = self.locks() if self.skip("requires") else []
        self.slots = ["this"] + [parameter.name for parameter in parameters]
        self.scopes = [{name: (final, type_, slot) for slot, (final, type_, name) in enumerate(parameters, 1)}]
        made = Method(owner, name, result, parameters, requires, at, begin, atomic_at, self.block())
        made.end, made.slots = self.behind(), self.slots
        owner.methods.append(made)

    def locks(self) -> list[list[str]]:
        locks = [self.lock()]
        while self.skip(","):
            locks.append(self.lock())
        return locks
