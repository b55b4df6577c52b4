"""The command `atomic-page`: one page of a source, which needs no network and reads without scripts.

What the programs wrote stands in <samp>, word for word; the page says which of its other parts are read from the text
by these scripts, and what that reading was held against.
"""
from __future__ import annotations

import argparse
import os
import re
import urllib.parse
from typing import NoReturn, Optional

from .command import Answer, Failed, run, with_output, words_of
from .escapes import warnings_of
from .lanes import Schedule
from .listing import Listing
from .markup import json_inside, samp, script, style, tag, text
from .marks import Marks
from .programs import Answers
from .source import Source
from .trees import BASICS
from .views import View

ABOUT = """Makes one page of a source, which needs no network and reads without scripts: each statement in the colour
        of its atomicity, boxes for the locks that matter to a method, and of a refused method its steps, with the
        text of `atomic_why`. With a SCHEDULE: the steps of its threads in lanes, below them the written order where
        the source is accepted, and the objects and locks at each front."""
BEHIND = """The status is 0 where the page is written, 2 where the words are wrong, and 3 where no page can be made: a
         line says why."""

HERE = os.path.dirname(os.path.realpath(__file__))
# more methods aren't shown at once, or are lines without links
MOST_OPEN, MOST_LINKS = 40, 400
MEANINGS = {
    "const": "touches nothing that another thread can change",
    "mover": "can be moved past the steps of other threads",
    "atomic": "can be pushed together into one moment",
    "cmpd": "compound: others may come in between",
    "error": "touches a guarded field without its guard",
}
WHOSE = [
    "Whose words these are. "
    + samp("Text on such a ground")
    + " is word for word what <code>atomic</code> or <code>atomic_why</code> "
    "wrote: verdicts, atomicities, explanations, orders and states. Colours and signs are theirs too: of an accepted "
    "source they come from the book that <code>atomic derive</code> writes, of a refused one from the book of the same "
    "source without its promises, and where a method is an error from <code>atomic_why --all</code>.",
    "All else is a script's: which text belongs to which part, what a rule is called, which locks are held, which line "
    "a step stands at, its kind and what it changes. The script compares its parts with those of the book and the "
    "listing, and the state at each front that the slider shows with the one that <code>atomic run</code> "
    "writes; where one differs it makes no page.",
]
HINTS = [
    "Point at a statement, an access or a call: its rule, its guard and the locks that are held there. In the listing "
    "the keys \u2190 and \u2192 go from one to the next.",
    "Accesses and calls are underlined: a mover with one line, atomic with two, cmpd with a wave, an error with "
    "dashes.",
]
BOXES_HINT = "Tick a lock below a method's head: the method as a caller sees it who holds that lock."
POLICY = "default-src 'none'; style-src 'unsafe-inline'; script-src 'unsafe-inline'; img-src data:"
META = [
    {"charset": "utf-8"},
    {"name": "viewport", "content": "width=device-width, initial-scale=1"},
    {"http_equiv": "Content-Security-Policy", "content": POLICY},
    {"name": "color-scheme", "content": "light dark"},
]
REFUSED = re.compile(r"refused at (\d+):(\d+): (.*)")


def beside(name: str) -> str:
    with open(os.path.join(HERE, name), encoding="utf-8") as file:
        return file.read()


def without_promises(source: Source) -> bytes:
    """The same bytes with blanks in place of the word `atomic` before methods: they promise nothing, and are judged
    as before."""
    data = bytearray(source.data)
    for method in source.methods:
        if method.atomic_at is not None:
            data[method.atomic_at : method.atomic_at + 6] = b" " * 6
    return bytes(data)


class Page:
    def __init__(self, path: str, schedule_path: Optional[str]) -> None:
        self.path, self.schedule_path = path, schedule_path
        self.answers, self.name = Answers(path), os.path.basename(path)
        with open(path, "rb") as file:
            self.data = file.read()
        self.warnings = warnings_of(self.name, self.data)
        self.source: Optional[Source] = None
        self.views: list[View] = []
        self.listing: Optional[Listing] = None
        if self.answers.status in (0, 2):
            self.source = Source(self.data)
            self.answers.judge(path, without_promises(self.source))
            self.views = [View(self.source, method, self.answers) for method in self.source.methods]
            groups = self.answers.explanations + [[fact] for fact in self.warnings]
            self.listing = Listing(self.source, self.views, Marks(self.source, groups))

    def html(self) -> str:
        footer = tag("footer", *(tag("p", words) for words in WHOSE))
        main = tag("main", self.verdict(), self.methods(), self.code(), self.schedule(), footer)
        data = script(self.tables() + "\n" + beside("page.js"))
        head = [tag("meta", **known) for known in META]
        head += [tag("title", text(f"{self.name}: atomic")), style(beside("page.css"))]
        inside = tag("head", *head) + tag("body", main, data)
        return "<!DOCTYPE html>\n" + tag("html", inside, lang="en", xmlns="http://www.w3.org/1999/xhtml") + "\n"

    def tables(self) -> str:
        """For the script: the trees that recolour, and in a large page what is said of its parts."""
        if self.listing is None:
            return "const trees = [], said = [];"
        trees, said = json_inside(self.listing.trees.json()), json_inside(self.listing.words_said.json())
        return f"const trees = {trees}, said = {said};"

    # The head.

    def verdict(self) -> str:
        accepted = self.answers.status == 0
        word = "accepted" if accepted else "refused"
        lines = [] if accepted else self.answers.lines
        told = "".join(tag("p", samp(line), class_="line") for line in lines)
        told += "".join(tag("p", text(fact.shown()), class_="line") for fact in self.warnings)
        return tag("header", tag("h1", text(self.name)), tag("p", word, class_=f"verdict {word}"), told, legend())

    def methods(self) -> str:
        if not self.views:
            return ""
        count = tag("summary", f"{len(self.views)} methods")
        if len(self.views) > MOST_LINKS and self.answers.shown:
            return tag("details", count, tag("pre", samp("\n".join(self.answers.shown))), class_="methods")
        rows = "".join(self.method_row(view) for view in self.views)
        return tag(
            "details", count, tag("ul", rows), class_="methods", open="open" if len(self.views) <= MOST_OPEN else None
        )

    def method_row(self, view: View) -> str:
        number = view.method.number
        shown = self.answers.shown[number] if number < len(self.answers.shown) else None
        line = samp(shown) if shown else text(view.method.full_name())
        basic = view.own_basic()
        sign = tag("i", class_=f"g {basic}") if basic else ""
        note = tag("a", "refused", href=f"#method-{number}", class_="refused") if view.why else ""
        return tag("li", sign, tag("a", line, href=f"#method-{number}"), note)

    # The source.

    def code(self) -> str:
        if self.listing is None:
            return self.refused_code()
        classes = "listing large" if self.listing.is_large else "listing"
        listing = tag("div", self.listing.html(), class_=classes, tabindex="0", role="group", aria_label="the source")
        hints = HINTS + [BOXES_HINT] * any(view.boxes for view in self.views)
        panel = tag("aside", *(tag("p", hint, class_="hint") for hint in hints), id="panel", aria_live="polite")
        return tag("div", listing, panel, class_="source")

    def refused_code(self) -> str:
        """A source that is no program: its lines, and the place of the fault."""
        place = REFUSED.match(self.answers.lines[0]) if self.answers.lines else None
        lines = self.data.decode("utf-8", "replace").split("\n")
        rows = [plain_line(number, line, place) for number, line in enumerate(lines, 1)]
        return tag("div", tag("div", tag("div", *rows, class_="code"), class_="listing"), class_="source")

    # The schedule.

    def schedule(self) -> str:
        if self.schedule_path is None:
            return self.link_to_witness()
        if self.source is None:
            raise Failed(f"{self.answers.lines[0]}: there is nothing to run")
        return Schedule(self.source, self.path, self.schedule_path, self.answers.status == 0).html()

    def link_to_witness(self) -> str:
        """Of a refused source: the schedule beside it that shows why, where there is one."""
        name = os.path.splitext(self.name)[0] + ".witness"
        if self.answers.status != 2 or not os.path.exists(os.path.join(os.path.dirname(self.path), name)):
            return ""
        link = tag("a", tag("code", text(name)), href=urllib.parse.quote(os.fsencode(name)))
        shows = tag("code", text(f"atomic-page {self.name} {name}"))
        return tag("p", link, " is a schedule that breaks the promise. ", shows, " shows it.", class_="what")


def legend() -> str:
    rows = [tag("li", tag("b", basic, class_=f"b {basic}"), f" {MEANINGS[basic]}") for basic in BASICS]
    return tag("ul", *rows, class_="legend", aria_label="colours and signs")


def plain_line(number: int, line: str, place: Optional[re.Match[str]]) -> str:
    """A line of a source that is no program; with a mark where the fault is, if it is here."""
    at = int(place[2]) - 1 if place and int(place[1]) == number else None
    code, note = text(line), ""
    if at is not None and place is not None:
        words = line.encode()
        marked = words[at:].decode("utf-8", "replace") or " "
        code = text(words[:at].decode("utf-8", "replace")) + tag("mark", text(marked))
        note = tag("p", tag("span", samp(place[3])), class_="why error")
    sign = tag("i", class_="g error" if at is not None else "g")
    return tag("div", sign, tag("code", code), class_="l", id=f"L{number}", data_n=number) + note


def command(words: argparse.Namespace) -> Answer:
    return Answer(Page(words.file, words.schedule).html(), 0, words.output)


def main(given: Optional[list[str]] = None) -> NoReturn:
    words = words_of("atomic-page", ABOUT, BEHIND)
    words.add_argument("file", metavar="FILE", help="a source")
    words.add_argument("schedule", metavar="SCHEDULE", nargs="?", help="a schedule of it, to be shown step by step")
    with_output(words)
    run(words, given, command)
