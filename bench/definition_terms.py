"""Terms of antt, as nested tuples: the part of the language that definitions are written in."""
from __future__ import annotations

import ast
import re
from typing import Any, Optional

# a term: its kind and its parts
Term = Any


class Stuck(Exception):
    """What is computed depends on something that isn't known, or has no clause."""


class Unreadable(Exception):
    """A text that is outside of the part of antt that is read here."""


# ---- terms

TOKEN = re.compile(
    r"""\s+|(?P<string>"(?:[^"\\]|\\.)*")|(?P<number>\d+)|(?P<dot>\.(?=[\w◌]))|(?P<name>[^\W\d][\w']*(?:-[\w']+)*)"""
    r"""|(?P<hole>◌\S*◌)"""
    r"""|(?P<op>>>=|\+\+|&&|\|\||==|[()\[\]{},;=λ.∷+\-*^≡≢≤<→×⊎¬:⊥?])"""
)
# how tightly operators bind, and on which side they associate
LEVELS = {
    ">>=": (1, "l"),
    "||": (2, "r"),
    "&&": (3, "r"),
    "≡": (4, "n"),
    "==": (5, "n"),
    "∷": (6, "r"),
    "++": (6, "r"),
    "+": (7, "l"),
    "-": (7, "l"),
    "*": (8, "l"),
    "^": (9, "r"),
}
KEYWORDS = {"if", "then", "else", "let", "in", "record"}


def tokens_of(text: str) -> list[Token]:
    found: list[Token] = []
    at = 0
    while at < len(text):
        match = TOKEN.match(text, at)
        if not match:
            raise Unreadable(text[at : at + 20])
        if match.lastgroup:
            found.append((match.lastgroup, match.group(), match.start()))
        at = match.end()
    return found


# a token: its kind, its text and where it stands
Token = tuple[str, str, int]


class Parser:
    """Reads a term as nested tuples."""

    def __init__(self, text: str) -> None:
        self.tokens, self.at = tokens_of(text), 0

    def peek(self) -> Optional[str]:
        return self.tokens[self.at][1] if self.at < len(self.tokens) else None

    def kind(self) -> Optional[str]:
        return self.tokens[self.at][0] if self.at < len(self.tokens) else None

    def take(self, wanted: Optional[str] = None) -> str:
        if self.at >= len(self.tokens) or (wanted is not None and self.peek() != wanted):
            raise Unreadable(f"{wanted} before {self.peek()}")
        self.at += 1
        return self.tokens[self.at - 1][1]

    def whole(self) -> Term:
        term = self.term()
        if self.at != len(self.tokens):
            raise Unreadable(f"behind a term: {self.peek()}")
        return term

    def term(self) -> Term:
        word = self.peek()
        if word == "λ":
            return self.function()
        if word == "let":
            return self.let()
        if word == "if":
            self.take()
            test = self.term()
            self.take("then")
            first = self.term()
            self.take("else")
            return ("if", test, first, self.term())
        return self.infix(0)

    def function(self) -> Term:
        self.take("λ")
        names = []
        while self.peek() != ".":
            if self.peek() == "(":
                self.take()
                while self.peek() != ":":
                    names.append(self.take())
                depth = 1
                while depth:
                    depth += {"(": 1, ")": -1}.get(self.take(), 0)
            else:
                names.append(self.take())
        self.take(".")
        return ("lambda", names, self.term())

    def let(self) -> Term:
        self.take("let")
        name = self.take()
        if self.peek() == ":":
            while self.peek() != "=":
                self.take()
        self.take("=")
        value = self.term()
        self.take("in")
        return ("let", name, value, self.term())

    def infix(self, least: int) -> Term:
        left = self.application()
        while self.kind() == "op" and LEVELS.get(self.peek() or "", (-1, ""))[0] >= least:
            op = self.take()
            level, side = LEVELS[op]
            right = (
                self.term() if self.peek() in ("λ", "if", "let") else self.infix(level if side == "r" else level + 1)
            )
            left = ("op", op, left, right)
        return left

    def starts_atom(self) -> bool:
        word, kind = self.peek(), self.kind()
        if word is None or word in ("then", "else", "in"):
            return False
        return kind in ("string", "number", "name", "hole") or word in ("(", "[", "λ", "{")

    def application(self) -> Term:
        term = self.atom()
        while self.starts_atom() and self.peek() != "if" and self.peek() != "let":
            if self.peek() == "{":
                self.skip_braces()
                continue
            if self.peek() == "λ":
                term = ("apply", term, self.term())
                break
            term = ("apply", term, self.atom())
        return term

    def skip_braces(self) -> None:
        depth = 0
        while True:
            depth += {"{": 1, "}": -1}.get(self.take(), 0)
            if not depth:
                return

    def atom(self) -> Term:
        word, kind = self.peek(), self.kind()
        if word == "record":
            self.take()
            base = None if self.peek() == "{" else self.atom()
            return self.fields(("record", base, self.record_fields()))
        if kind == "string":
            return ("string", ast.literal_eval(self.take()))
        if kind == "number":
            return ("number", int(self.take()))
        if kind in ("name", "hole"):
            if word in ("then", "else", "in"):
                raise Unreadable(word)
            return self.fields(("name", self.take()))
        if word == "[":
            self.take()
            self.take("]")
            return ("name", "[]")
        if word == "(":
            self.take()
            items = [self.term()]
            while self.peek() == ",":
                self.take()
                items.append(self.term())
            self.take(")")
            return self.fields(items[0] if len(items) == 1 else ("pair", items))
        raise Unreadable(f"no atom: {word}")

    def record_fields(self) -> list[tuple[str, Term]]:
        self.take("{")
        found = []
        while self.peek() != "}":
            name = self.take()
            self.take("=")
            found.append((name, self.term()))
            if self.peek() == ";":
                self.take()
        self.take("}")
        return found

    def fields(self, term: Term) -> Term:
        while self.kind() == "dot":
            self.take()
            term = ("field", term, self.take())
        return term
