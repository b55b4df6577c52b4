"""Logs of runs of logged copies: the kinds of their steps, and whether each atomic method's steps are a reducible word.

A line of a log is a thread, an action and its words, and behind a tab the place in the source
(java/src/atomic/trace/Log.java). The guard of a place is a lock that is held at each access of it in this run; what one
thread alone touches wants none. What holds a lock that is held at each write of a place may read it like that.
"""
import re
from collections import defaultdict
from collections.abc import Iterator
from dataclasses import dataclass
from pathlib import Path

ACCESSES = ("read", "write", "change")
LOCKS = ("take", "give")
UNJUDGED = ("enter", "leave", "failed", "stopped")


@dataclass(frozen=True)
class Event:
    """A line of a log: the thread, the action, what it acts on, and the place in the source."""

    thread: str
    action: str
    target: str
    place: str
    line: int

    @property
    def object(self) -> str:
        """The object that an access touches."""
        return re.split(r"[.\[]", self.target.removesuffix(".class"), maxsplit=1)[0]


@dataclass
class Block:
    """What one call of a method did: its name, and the events from its begin to its end in its own thread."""

    name: str
    thread: str
    events: list[Event]
    ended: bool = False


def events_of(path: Path) -> list[Event]:
    """The lines of a log."""
    found = []
    for number, text in enumerate(path.read_text(encoding="utf-8").splitlines(), 1):
        said, _, place = text.partition("\t")
        words = said.split(" ")
        found.append(Event(words[0], words[1], words[2] if len(words) > 2 else "", place, number))
    return found


@dataclass(frozen=True)
class Sharing:
    """Which objects several threads touch: for each the line in which the second one comes, and the last line in front
    of that in which the first one touches it, and in which it changes it; and the places that are written from then on.
    Of each lock the line in which the second one comes to it, or to the object whose monitor it is."""

    since: dict[str, int]
    alone: dict[str, tuple[str, int]]
    filled: dict[str, int]
    written: set[str]
    locks: dict[str, int]

    def is_alone(self, event: Event, line: int) -> bool:
        """Whether no other thread has touched the object of this access, or come to this lock, before a line."""
        since = self.locks if event.action in LOCKS else self.since
        return event.object not in since or line < since[event.object]

    def is_early(self, event: Event) -> bool:
        """Whether this is an access of an object that no other thread has touched yet."""
        return self.is_alone(event, event.line)

    def is_seen(self, event: Event) -> bool:
        """Whether other threads may see this access: what nobody writes when they come always gives the same."""
        return not self.is_early(event) and event.target in self.written


def sharing_of(events: list[Event], told: set[int]) -> Sharing:
    """The objects that several threads touch. What is written in these lines, which are told as errors, is left out."""
    found = Sharing({}, {}, {}, set(), {})
    first: dict[str, str] = {}
    for event in (each for each in events if each.action in ACCESSES + LOCKS):
        if first.setdefault(event.object, event.thread) != event.thread:
            found.locks.setdefault(event.object, event.line)
    for event in (each for each in events if each.action in ACCESSES):
        if event.object not in found.since:
            if found.alone.setdefault(event.object, (event.thread, event.line))[0] == event.thread:
                found.alone[event.object] = (event.thread, event.line)
                if event.action != "read":
                    found.filled[event.object] = event.line
            else:
                found.since[event.object] = event.line
        if event.object in found.since and event.action != "read" and event.line not in told:
            found.written.add(event.target)
    return found


def with_held(events: list[Event]) -> Iterator[tuple[Event, dict[str, int]]]:
    """Each event, and how often its thread holds which locks in front of it."""
    held: dict[str, dict[str, int]] = defaultdict(lambda: defaultdict(int))
    for event in events:
        mine = held[event.thread]
        yield event, {lock: count for lock, count in mine.items() if count}
        if event.action in ("take", "give"):
            mine[event.target] += 1 if event.action == "take" else -1


def guards_of(events: list[Event], told: set[int], actions: tuple[str, ...], sharing: Sharing) -> dict[str, set[str]]:
    """For each place the locks that are held at every such access of it. What stands in these lines, which are told as
    errors, is left out, and so is what one thread did before others touched the object."""
    guards: dict[str, set[str]] = {}
    for event, held in with_held(events):
        if event.action in actions and event.line not in told and not sharing.is_early(event):
            guards[event.target] = guards.get(event.target, set(held)) & set(held)
    return guards


def is_guarded(event: Event, held: dict[str, int], guards: dict[str, set[str]], writers: dict[str, set[str]]) -> bool:
    """Whether an access holds a lock that each access of its place holds, or a read one that each write holds."""
    needed = guards.get(event.target, set()) | (writers.get(event.target, set()) if event.action == "read" else set())
    return bool(needed & set(held))


def kinds_of(events: list[Event], told: set[int], sharing: Sharing) -> dict[int, str]:
    """The kind of each event by its line: right, left, both, or none of them; early, where no other thread has touched
    the object yet, and no lock is held that is held at each later access."""
    guards, kinds = guards_of(events, told, ACCESSES, sharing), {}
    writers = guards_of(events, told, ("write", "change"), sharing)
    for event, held in with_held(events):
        kind = "both"
        if event.action in LOCKS and held.get(event.target, 0) == (0 if event.action == "take" else 1):
            alone = sharing.is_alone(event, event.line)
            kind = "early" if alone else "right" if event.action == "take" else "left"
        elif event.action == "start":
            kind = "left"
        elif event.action == "join":
            kind = "right"
        elif event.action in ACCESSES and sharing.is_early(event):
            kind = "both" if is_guarded(event, held, guards, writers) else "early"
        elif event.action in ACCESSES and sharing.is_seen(event):
            kind = "both" if is_guarded(event, held, guards, writers) else "none"
        kinds[event.line] = kind
    return kinds


def blocks_of(events: list[Event], atomic: set[str]) -> list[Block]:
    """The outermost calls of the methods that are atomic."""
    found: list[Block] = []
    open_blocks: dict[str, list[Block | None]] = defaultdict(list)
    for event in events:
        stack = open_blocks[event.thread]
        for block in stack:
            if block:
                block.events.append(event)
        if event.action in ("begin", "enter"):
            outermost = event.target in atomic and not any(stack)
            begun = Block(event.target, event.thread, []) if outermost else None
            stack.append(begun)
            if begun:
                found.append(begun)
        elif event.action in ("end", "leave") and stack:
            last = stack.pop()
            if last:
                last.ended = True
    return found


def behind_waits(block: Block) -> list[Event]:
    """The block's events from where its last wait ended, if nothing was written before; else all of them.

    A wait gives its lock away and takes it again. What only looked, and then waited, is a turn of an empty loop.
    """
    waits = [at for at, event in enumerate(block.events) if event.action == "give" and event.place == "wait"]
    if not waits or any(event.action in ("write", "change", "start") for event in block.events[: waits[-1]]):
        return block.events
    return block.events[waits[-1] + 1 :]


def counted(events: list[Event], repeats: dict[str, str]) -> list[Event]:
    """The events without the looks that are no step: where another place is next, or everywhere if that is the same."""
    kept = []
    for at, event in enumerate(events):
        again = repeats.get(event.place)
        if again and event.action == "read":
            further = (each.place for each in events[at + 1 :] if each.place in (event.place, again))
            if again == event.place or next(further, "") == again:
                continue
        kept.append(event)
    return kept


def comes_later(event: Event, kind: str, behind: Event, sharing: Sharing) -> bool:
    """Whether a step can be moved later, up to another one of its thread. One of an object that is the thread's own
    until then can, and so can the taking of a lock."""
    early = kind == "early" and (event.action == "take" or sharing.is_alone(event, behind.line))
    return kind in ("right", "both") or early


def comes_earlier(event: Event, kind: str, behind: Event, sharing: Sharing) -> bool:
    """Whether a step can be moved earlier, up to another one of its thread. What others did with the object while it
    was their own has to stand in front of that: they hold no lock then. Two looks can always change places."""
    owner, last = sharing.alone.get(event.object, (event.thread, 0)) if event.action in ACCESSES else (event.thread, 0)
    last = sharing.filled.get(event.object, 0) if event.action == "read" else last
    return kind == "early" or kind in ("left", "both") and (owner == event.thread or last < behind.line)


def is_reducible(steps: list[Event], kinds: dict[int, str], sharing: Sharing) -> bool:
    """Whether there is a step up to which those in front of it can be moved later, and those behind it earlier."""
    return not steps or any(
        all(comes_later(each, kinds[each.line], steps[at], sharing) for each in steps[:at])
        and all(comes_earlier(each, kinds[each.line], steps[at], sharing) for each in steps[at + 1 :])
        for at in range(len(steps))
    )


def as_log(events: list[Event], texts: list[str], atomic: set[str], repeats: dict[str, str]) -> str:
    """The log in the format of docs/traces.md: blocks are ended calls of atomic methods, behind their waits; places are
    left out, and so are the looks in them that are no step."""
    blocks = [block for block in blocks_of(events, atomic) if block.ended and behind_waits(block)]
    looks = {event.line for block in blocks for event in block.events}
    looks -= {event.line for block in blocks for event in counted(block.events, repeats)}
    begins = {behind_waits(block)[0].line: block.name for block in blocks}
    ends = {block.events[-1].line for block in blocks}
    lines = []
    for event, text in zip(events, texts):
        if event.line in begins:
            lines.append(f"{event.thread} begin {begins[event.line]}")
        if event.line in ends:
            lines.append(f"{event.thread} end")
        if event.action not in UNJUDGED + ("begin", "end") and event.line not in looks:
            lines.append(text.partition("\t")[0])
    return "\n".join(lines) + "\n"
