"""The source as a listing: each statement in the colour of its basic, with signs, explanations, and boxes for locks."""
from __future__ import annotations

import collections
import json
from collections.abc import Hashable
from typing import NamedTuple, Optional, Union

from .markup import samp, tag, text
from .marks import Marks, Note, badge
from .parts import Method, Part
from .said import said_of
from .source import Source
from .trees import BASICS, Path, Tree
from .views import Access, Piece, View, accesses_in, cut_off, pieces_of

# a longer source is laid out as it comes into sight, so many lines at once, and what is said of its parts stands in
# one table
LARGE, BLOCK = 20_000, 50

# a tree that recolours: the number of a basic, or a box with the tree where it is ticked and the tree where it isn't
Key = Union[int, tuple[int, Hashable, Hashable]]


class Table:
    """Things with numbers, each once."""

    def __init__(self) -> None:
        self.numbers: dict[Hashable, int] = {}

    def number(self, thing: Hashable) -> int:
        return self.numbers.setdefault(thing, len(self.numbers))

    def json(self) -> str:
        return json.dumps(list(self.numbers), separators=(",", ":"), ensure_ascii=False)


class Line(NamedTuple):
    """A line of the source, or the part of one that one method has: its number, where it stands, and its pieces."""

    number: int
    begin: int
    end: int
    pieces: list[Piece]


class Inside(NamedTuple):
    """What stands in an element of the listing, and which kind of element it is."""

    html: str
    kind: str


class Section(NamedTuple):
    """A piece of the page, and how many lines high it is."""

    html: str
    lines: int


def chunk(lines: list[str], count: int) -> str:
    return tag("div", *lines, class_="chunk", style=f"--lines:{count}")


def tree_key(tree: Tree, boxes: list[Path]) -> Key:
    if isinstance(tree, str):
        return BASICS.index(tree)
    return (boxes.index(tree[0]), tree_key(tree[1], boxes), tree_key(tree[2], boxes))


class Listing:
    def __init__(self, source: Source, views: list[View], marks: Marks) -> None:
        self.source, self.marks, self.trees, self.words_said = source, marks, Table(), Table()
        self.ends = source.starts[1:] + [len(source.data)]
        self.views = {view.method: view for view in views}
        self.is_large = len(source.data) > LARGE

    def html(self) -> str:
        """The listing: a section for each method, and what stands between them."""
        sections, place = [], 0
        for method in self.source.methods:
            begin = max(place, self.source.starts[self.source.place(method.begin)[0] - 1])
            sections.append(self.plain(place, begin))
            place = self.line_end(method)
            sections.append(self.method(self.views[method], begin, place))
        sections.append(self.plain(place, len(self.source.data)))
        return self.chunks(sections) if self.is_large else "".join(section.html for section in sections)

    def chunks(self, sections: list[Section]) -> str:
        """In a large page what is out of sight isn't laid out: neighbours together, up to so many lines."""
        out: list[str] = []
        waiting: list[str] = []
        lines = 0
        for section in sections + [Section("", BLOCK + 1)]:
            if lines + section.lines > BLOCK and waiting:
                out.append(chunk(waiting, lines))
                waiting, lines = [], 0
            if section.lines > BLOCK:
                out.append(section.html)
            else:
                waiting.append(section.html)
                lines += section.lines
        return "".join(out)

    def line_end(self, method: Method) -> int:
        """The end of the method's last line, where no other method begins on it."""
        end = self.ends[self.source.place(method.end - 1)[0] - 1]
        following = self.source.methods[method.number + 1 : method.number + 2]
        return min([end] + [other.begin for other in following])

    def plain(self, begin: int, end: int) -> Section:
        if begin == end:
            return Section("", 0)
        lines = self.lines(begin, end, [(begin, end, None)], None)
        return Section(tag("div", self.joined(lines), class_="code"), len(lines))

    def method(self, view: View, begin: int, end: int) -> Section:
        body = view.method.body
        pieces: list[Piece] = [(begin, body.begin, None), *pieces_of(body), (body.end, end, None)]
        classes = "code method refused" if view.why else "code method"
        lines = self.lines(begin, end, pieces, view)
        name = view.method.full_name()
        section = tag("section", self.joined(lines), class_=classes, id=f"method-{view.method.number}", aria_label=name)
        return Section(section, len(lines) + bool(view.boxes))

    # Lines.

    def lines(self, begin: int, end: int, pieces: list[Piece], view: Optional[View]) -> list[str]:
        """The lines of a piece of the source."""
        out, number, waiting = [], self.source.place(begin)[0], collections.deque(pieces)
        while begin < end:
            last = min(self.ends[number - 1], end)
            out.append(self.line(Line(number, begin, last, cut_off(waiting, last)), view))
            begin, number = last, number + 1
        return out

    def joined(self, lines: list[str]) -> str:
        """The lines together; those of a long method in a large page in chunks."""
        if not self.is_large or len(lines) < BLOCK:
            return "".join(lines)
        return "".join(chunk(lines[k : k + BLOCK], len(lines[k : k + BLOCK])) for k in range(0, len(lines), BLOCK))

    def line(self, line: Line, view: Optional[View]) -> str:
        number = line.number
        head = view if view is not None and line.begin <= view.method.at < line.end else None
        begun = None if head else next((part for begin, _, part in line.pieces if part and part.begin == begin), None)
        sign, tree = self.sign_of(view, head, begun)
        code = "".join(self.piece(piece, view, begun) for piece in line.pieces)
        is_whole = line.begin == self.source.starts[number - 1]
        classes = "l" + (" between" if number in self.marks.between else "")
        inside = tag("i", class_=f"g {sign}".strip(), data_t=tree) + tag("code", code)
        row = tag(
            "div", inside, class_=classes, id=f"L{number}" if is_whole else None, data_n=number if is_whole else None
        )
        before = self.notes(self.marks.before, number) if is_whole else ""
        behind = self.notes(self.marks.behind, number) if line.end == self.ends[number - 1] else ""
        return before + row + (self.boxes(head) if head else "") + behind

    def sign_of(self, view: Optional[View], head: Optional[View], begun: Optional[Part]) -> tuple[str, Optional[int]]:
        """The sign before a line, and the tree that recolours it: those of the method at its head, else of the
        statement that begins."""
        if head is not None:
            own = head.own_basic()
            return (f"{own} whole", self.tree_number(head.tree, head)) if own else ("", None)
        basic = view.basic(begun) if view and begun else None
        if view is None or begun is None or basic is None:
            return "", None
        return basic, self.tree_number(view.trees[begun.number], view)

    def piece(self, piece: Piece, view: Optional[View], begun: Optional[Part]) -> str:
        """A piece of one line that belongs to one statement."""
        begin, end, part = piece
        words = self.words(begin, end)
        if part is None or view is None or view.basic(part) is None or not words.strip():
            return self.named(begin, end, view)
        more = " more" if part.begin == begin and part is not begun else ""
        blanks = len(words) - len(words.lstrip())
        inside = self.inner(begin + blanks, end, self.accesses(part, view), view)
        return text(words[:blanks]) + self.span("span", part, view, begin, Inside(inside, "s" + more))

    def words(self, begin: int, end: int) -> str:
        return self.source.slice(begin, end).rstrip("\n")

    def named(self, begin: int, end: int, view: Optional[View]) -> str:
        """Text outside of statements, with the method's name marked."""
        if view is None or not begin <= view.method.at < end:
            return text(self.words(begin, end))
        method = view.method
        behind = method.at + len(method.name)
        return text(self.words(begin, method.at)) + tag("b", text(method.name)) + text(self.words(behind, end))

    def accesses(self, part: Part, view: View) -> list[Access]:
        if part not in view.accesses:
            view.accesses[part] = accesses_in(part, view)
        return view.accesses[part]

    def inner(self, begin: int, end: int, accesses: list[Access], view: View) -> str:
        """The text of a statement, with its accesses and calls marked."""
        out, place = [], begin
        for part, own in accesses:
            first, last = max(part.begin, place), min(part.end, end)
            if first < last:
                out.append(text(self.words(place, first)))
                out.append(self.span("u", part, view, first, Inside(self.inner(first, last, own, view), "p")))
                place = last
        return "".join(out) + text(self.words(place, end))

    def span(self, name: str, part: Part, view: View, begin: int, inside: Inside) -> str:
        step = badge(self.marks.numbers.get(part) if begin == part.begin else None)
        number, words = self.tree_number(view.trees[part.number], view), "\n".join(said_of(part, view))
        classes = f"{inside.kind} {view.basic(part)}"
        if self.is_large:
            return tag(name, step + inside.html, class_=classes, data_t=number, data_w=self.words_said.number(words))
        return tag(name, step + inside.html, class_=classes, data_t=number, title=words)

    def tree_number(self, tree: Optional[Tree], view: View) -> Optional[int]:
        """The number of the tree that recolours, where there is one."""
        return None if tree is None or isinstance(tree, str) else self.trees.number(tree_key(tree, view.boxes))

    # What stands between lines.

    def boxes(self, view: View) -> str:
        """The locks that matter to the method, those that it requires with a `*`: the script of the page makes boxes
        of them."""
        if not view.boxes or view.tree is None:
            return ""
        names = " ".join(view.reading.name(path) + "*" * (path in view.reading.required) for path in view.boxes)
        return tag(
            "div", class_="boxes", data_boxes=names, data_t=self.tree_number(view.tree, view), data_b=view.own_basic()
        )

    def notes(self, told: dict[int, list[Note]], line: int) -> str:
        """What the program says of a line."""
        return "".join(note_of(one) for one in told.pop(line, []))


def note_of(note: Note) -> str:
    fact = note.fact
    classes = f"why {fact.word}" + (" gap" if fact.is_gap else "") + (" between" if note.joined else "")
    # a warning is the script's
    words = text(fact.text) if fact.word == "warning" else samp(fact.text)
    return tag("p", tag("span", badge(note.number) + words), class_=classes)
