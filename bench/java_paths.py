"""Whether what a method did in a run is a path of its skeleton.

A skeleton is read as java/src/atomic/java/trace/SkeletonText.java writes it. Each step that the log has must stand in
the skeleton, in this order; steps of the skeleton may be missing in the log, since a step that nobody else can see
isn't always logged.
"""
import re
from collections.abc import Callable
from dataclasses import dataclass, replace
from pathlib import Path

from java_logs import ACCESSES, LOCKS, Event, Sharing

TOKEN = re.compile(r"[()]|[^\s()]+")


@dataclass(frozen=True)
class Part:
    """A part of a skeleton: its word, the words behind it, and its own parts."""

    word: str
    words: tuple[str, ...]
    parts: tuple["Part", ...]


@dataclass(frozen=True)
class Method:
    """A method of a skeleton: the place of its name in the Java source, its name, its body, and whether that is written
    where it is called."""

    place: str
    name: str
    body: Part
    helper: bool = False


def part_of(tokens: list[str]) -> Part:
    """The part that begins with the last token of this list, which is turned round."""
    tokens.pop()
    words: list[str] = []
    parts: list[Part] = []
    while tokens[-1] != ")":
        if tokens[-1] == "(":
            parts.append(part_of(tokens))
        else:
            words.append(tokens.pop())
    tokens.pop()
    return Part(words[0], tuple(words[1:]), tuple(parts))


def skeleton_of(path: Path) -> list[Method]:
    """The methods of a skeleton."""
    methods, helpers = [], set()
    for line in path.read_text(encoding="utf-8").splitlines():
        head, _, body = line.partition("\t")
        word, place, name = head.split(" ")
        if word == "method":
            methods.append(Method(place, name, part_of(TOKEN.findall(body)[::-1])))
        elif word == "helper":
            helpers.add(place)
    return [replace(each, helper=each.place in helpers) for each in methods]


def repeats_of(path: Path) -> dict[str, str]:
    """The looks that are no step where another place is next, each with that place."""
    words = (line.split(" ") for line in path.read_text(encoding="utf-8").splitlines())
    return {word[1]: word[2] for word in words if word[0] == "repeat"}


def lent_of(path: Path) -> frozenset[str]:
    """The places at which a method uses what it is given, whose steps stand where that is given to it."""
    words = (line.split(" ") for line in path.read_text(encoding="utf-8").splitlines())
    return frozenset(word[1] for word in words if word[0] == "lent")


class Walk:
    """Walks through skeletons along the events of one block."""

    def __init__(self, methods: list[Method], events: list[Event]) -> None:
        self.methods, self.events = methods, events
        self.by_place: dict[str, list[Method]] = {}
        for method in methods:
            self.by_place.setdefault(method.place, []).append(method)
        self.inside: set[tuple[int, int]] = set()
        self.furthest = 0

    def covers(self, method: Method, first: int, last: int) -> bool:
        """Whether the events from first to last, without it, are a path of the method's body."""
        return last in self.behind(method.body, {first})

    def behind(self, part: Part, starts: set[int]) -> set[int]:
        """The places among the events that a part may end at, if it begins at one of these."""
        ends: set[int] = getattr(self, "behind_" + part.word)(part, starts)
        self.furthest = max(self.furthest, *ends, 0)
        return ends

    def behind_seq(self, part: Part, starts: set[int]) -> set[int]:
        """One part after the other."""
        for each in part.parts:
            starts = self.behind(each, starts)
        return starts

    def behind_or(self, part: Part, starts: set[int]) -> set[int]:
        """Either part."""
        return self.behind(part.parts[0], starts) | self.behind(part.parts[1], starts)

    def behind_rep(self, part: Part, starts: set[int]) -> set[int]:
        """The part any number of times."""
        known: set[int] = set()
        while starts - known:
            known |= starts
            starts = self.behind(part.parts[0], starts)
        return known

    def behind_sync(self, part: Part, starts: set[int]) -> set[int]:
        """A lock around the part; steps stand in it whether the log has the lock or not. What a library's object does
        within its own monitor stands at the place of that."""
        place = part.words[0]
        inner = self.behind(part.parts[0], self.stepped(starts, "take", ""))
        inner = self.taken_while(inner, lambda event: event.action in ACCESSES and event.place == place)
        return self.stepped(inner, "give", "")

    def behind_read(self, part: Part, starts: set[int]) -> set[int]:
        """A read at a place."""
        return self.stepped(starts, "read", part.words[0])

    def behind_write(self, part: Part, starts: set[int]) -> set[int]:
        """A write at a place."""
        return self.stepped(starts, "write", part.words[0])

    def behind_wait(self, _: Part, starts: set[int]) -> set[int]:
        """A wait gives locks and takes them."""
        return self.taken_while(starts, lambda event: event.action in LOCKS)

    def behind_call(self, part: Part, starts: set[int]) -> set[int]:
        """A call: of a method whose events are marked, of a function that stands in this one, or of a library's
        method."""
        place, target = part.words[0], self.methods[int(part.words[1])]
        ends = self.taken_while(starts, lambda event: event.place == place)
        for start in sorted(ends):
            if start < len(self.events) and self.events[start].action in ("begin", "enter"):
                ends |= self.called(start)
            elif (id(target), start) not in self.inside:
                self.inside.add((id(target), start))
                ends |= self.behind(target.body, {start})
                self.inside.discard((id(target), start))
        return ends

    def called(self, start: int) -> set[int]:
        """Behind the call that begins here, if what it did is a path of its own skeleton."""
        depth, last = 0, start
        for last in range(start, len(self.events)):
            action = self.events[last].action
            depth += (action in ("begin", "enter")) - (action in ("end", "leave"))
            if not depth:
                break
        place = self.events[start].target.rpartition("@")[2]
        bodies = self.by_place.get(place, [])
        return (
            {last + 1}
            if any(self.covers(each, start + 1, last) for each in bodies) or not bodies and last == start + 1
            else set()
        )

    def stepped(self, starts: set[int], action: str, place: str) -> set[int]:
        """The starts, and the places behind the events there that are this step."""
        return starts | {
            start + 1
            for start in starts
            if start < len(self.events)
            and self.events[start].action == action
            and (not place or self.events[start].place == place)
        }

    def taken_while(self, starts: set[int], test: Callable[[Event], bool]) -> set[int]:
        """The starts, and all places behind them that are reached by such events."""
        ends = set(starts)
        for start in starts:
            while start < len(self.events) and test(self.events[start]):
                start += 1
                ends.add(start)
        return ends


def without_idle_calls(events: list[Event]) -> list[Event]:
    """The events without calls in which nothing happens."""
    kept: list[Event] = []
    for event in events:
        if event.action in ("end", "leave") and kept and kept[-1].action in ("begin", "enter"):
            kept.pop()
        else:
            kept.append(event)
    return kept


def without_helpers(events: list[Event], helpers: set[str]) -> list[Event]:
    """The events without the marks around helpers, whose steps stand where they are called."""
    kept: list[Event] = []
    entered: list[bool] = []
    for event in events:
        if event.action in ("begin", "enter"):
            entered.append(event.action == "enter" and event.target.rpartition("@")[2] in helpers)
            if not entered[-1]:
                kept.append(event)
        elif event.action not in ("end", "leave") or not entered or not entered.pop():
            kept.append(event)
    return kept


def unseen(
    methods: list[Method], events: list[Event], sharing: Sharing, place: str, lent: frozenset[str]
) -> Event | None:
    """The first event of a block that isn't on any path of the method at a place; none where all are. What stands at a
    place that is lent is told elsewhere."""
    steps = [event for event in events if event.action not in ACCESSES or event.place not in lent]
    steps = [event for event in steps if event.action not in ACCESSES or sharing.is_seen(event)]
    steps = [event for event in steps if event.action not in LOCKS or not sharing.is_alone(event, event.line)]
    steps = without_helpers(steps, {each.place for each in methods if each.helper})
    steps = [event for event in steps if event.action not in ("start", "join", "failed", "stopped")]
    if steps and steps[-1].action in ("end", "leave"):
        steps.pop()
    steps = without_idle_calls(steps)
    for method in (each for each in methods if each.place == place):
        walk = Walk(methods, steps)
        if walk.covers(method, 0, len(steps)):
            return None
    return steps[min(walk.furthest, len(steps) - 1)] if steps else None
