#!/usr/bin/env python3
"""judge_log.py LOG [--guards FILE]: judges the log of a run, as docs/traces.md says. It is a plain program, and not
proved.

It answers whether the blocks of a log are serial: whether the same events can stand in an order in which no block is
interrupted, each thread's events in their own order, each read seeing the value that it saw. The exit status is 0 for
`serial`, 1 for a text that is no log, 2 for a block that may be cut, 3 for an event that can't have happened, 4 for a
block that is open at the end, 6 for a file that can't be read, 9 for other words.
"""
from __future__ import annotations

import sys
from collections.abc import Callable, Iterator
from dataclasses import dataclass, field
from typing import NoReturn, Optional

import command_line

# The words of a line, as they stand.
Words = list[bytes]
# For each place what guards it: `lock` and the lock, `thread` and the thread, or `free` and nothing.
Guards = dict[bytes, tuple[str, Optional[bytes]]]

DEEDS = {
    "take": 1,
    "give": 1,
    "read": 2,
    "write": 2,
    "change": 3,
    "start": 1,
    "join": 1,
    "stop": 0,
    "begin": 1,
    "end": 0,
}


class Refused(Exception):
    """A status, and the lines that tell why."""

    def __init__(self, status: int, *lines: str) -> None:
        super().__init__(status)
        self.status, self.lines = status, lines


def words_of(line: bytes) -> Optional[Words]:
    """The words of a line; none where it isn't made of words with a space between."""
    words = line.split(b" ")
    good = all(0 < len(w) < 256 and all(c > 32 and c != 127 for c in w) for w in words)
    return words if good else None


def rows_of(data: bytes) -> tuple[list[bytes], bytes]:
    """The rows of a text, each ended by a line feed; and the bytes behind the last of them."""
    rows = data.split(b"\n")
    return rows[:-1], rows[-1]


def lines_of(data: bytes, is_line: Callable[[Words], bool], what: str, name: str) -> Iterator[tuple[int, Words]]:
    """The words of each line of a text, with its number, up to the first row that is no line."""
    rows, rest = rows_of(data)
    for number, row in enumerate(rows, 1):
        words = words_of(row)
        if words is None or not is_line(words):
            raise Refused(1, f"{name}:{number}: error: not a line of {what}")
        yield number, words
    if rest:
        raise Refused(1, f"{name}:{len(rows) + 1}: error: not a line of {what}")


def is_event(words: Words) -> bool:
    return len(words) >= 2 and words[1].decode("latin1") in DEEDS and len(words) == 2 + DEEDS[words[1].decode("latin1")]


def is_guard(words: Words) -> bool:
    return (len(words) == 3 and words[1] in (b"lock", b"thread")) or (len(words) == 2 and words[1] == b"free")


class Guess:
    """For each place a lock that is held at all accesses, else the thread if there is one alone, else nothing."""

    def __init__(self) -> None:
        self.held: dict[bytes, dict[bytes, int]] = {}
        self.places: dict[bytes, tuple[list[bytes], set[bytes]]] = {}

    def note(self, words: Words) -> None:
        thread, deed = words[0], words[1]
        held = self.held.setdefault(thread, {})
        if deed == b"take":
            held[words[2]] = held.get(words[2], 0) + 1
        elif deed == b"give" and held.get(words[2]):
            held[words[2]] -= 1
            if not held[words[2]]:
                del held[words[2]]
        elif deed in (b"read", b"write", b"change"):
            if words[2] not in self.places:
                self.places[words[2]] = (list(held), {thread})
            else:
                locks, threads = self.places[words[2]]
                self.places[words[2]] = ([lock for lock in locks if lock in held], threads | {thread})

    def guards(self) -> Guards:
        guards: Guards = {}
        for place, (locks, threads) in self.places.items():
            if locks:
                guards[place] = ("lock", locks[0])
            elif len(threads) == 1:
                guards[place] = ("thread", next(iter(threads)))
        return guards


@dataclass
class Thread:
    """Whether a thread has ended, its open blocks with the lines that begin them, and the line of the outermost one's
    step after which others may see it."""

    ended: bool = False
    blocks: list[tuple[bytes, int]] = field(default_factory=list)
    commit: Optional[int] = None


class Judge:
    """What is known of locks, places and threads after some lines."""

    def __init__(self, name: str, guards: Guards) -> None:
        self.name, self.guards = name, guards
        self.locks: dict[bytes, tuple[Optional[bytes], int]] = {}
        self.places: dict[bytes, bytes] = {}
        self.threads: dict[bytes, Thread] = {}

    def line(self, number: int, kind: str, text: str) -> str:
        return f"{self.name}:{number}: {kind}: {text}"

    def impossible(self, number: int, why: str) -> NoReturn:
        raise Refused(3, self.line(number, "error", "this can't have happened: " + why))

    def kind_of_access(self, thread: bytes, place: bytes) -> str:
        guard = self.guards.get(place, ("free", None))
        if guard[0] == "lock" and guard[1] is not None:
            return "both" if self.locks.get(guard[1], (None, 0))[0] == thread else "bare"
        if guard[0] == "thread":
            return "both" if guard[1] == thread else "bare"
        return "other"

    def turn(self, number: int, words: Words) -> str:
        """Does an event, and gives its kind."""
        thread, deed = words[0], words[1]
        me = self.threads.setdefault(thread, Thread())
        if me.ended:
            self.impossible(number, "the thread has ended")
        if deed == b"end" and not me.blocks:
            self.impossible(number, "no block is open")
        if deed in (b"take", b"give"):
            return self.turn_of_lock(number, words)
        if deed in (b"read", b"write", b"change"):
            return self.turn_of_place(number, words)
        if deed in (b"start", b"join"):
            return self.turn_of_thread(number, words)
        if deed == b"stop":
            me.ended = True
            return "left"
        if deed == b"begin":
            me.blocks.append((words[2], number))
        else:
            me.blocks.pop()
        return "both"

    def turn_of_lock(self, number: int, words: Words) -> str:
        """Takes or gives a lock."""
        thread, lock = words[0], words[2]
        holder, count = self.locks.get(lock, (None, 0))
        if words[1] == b"take":
            if holder not in (None, thread):
                self.impossible(number, "the lock is held by another")
            self.locks[lock] = (thread, count + 1)
            return "both" if count else "right"
        if holder != thread:
            self.impossible(number, "the lock is not held by this thread")
        self.locks[lock] = (thread, count - 1) if count > 1 else (None, 0)
        return "both" if count > 1 else "left"

    def turn_of_place(self, number: int, words: Words) -> str:
        """Reads, writes or changes a place."""
        place = words[2]
        if words[1] != b"write" and self.places.get(place, words[3]) != words[3]:
            self.impossible(number, "the place holds another value")
        self.places[place] = words[-1]
        return self.kind_of_access(words[0], place)

    def turn_of_thread(self, number: int, words: Words) -> str:
        """Starts another thread, or waits for its end."""
        if words[1] == b"start":
            if words[2] in self.threads:
                self.impossible(number, "the thread was there already")
            self.threads[words[2]] = Thread()
            return "left"
        if not self.threads.setdefault(words[2], Thread()).ended:
            self.impossible(number, "the thread has not ended")
        return "right"

    def helps(self, words: Words, kind: str) -> str:
        """What would help an event that doesn't fit."""
        deed, thread = words[1].decode("latin1"), show(words[0])
        if deed == "take":
            return f"it takes {show(words[2])} here: held from the beginning of the block on it would help"
        if deed == "join":
            return "no guard helps: it waits for another thread here"
        guarded_by, guard = self.guards.get(words[2], ("free", None))
        if kind == "bare" and guard is not None:
            if guarded_by == "lock":
                return f"{show(words[2])} is guarded by {show(guard)}, which {thread} does not hold here"
            return f"{show(words[2])} is used by {show(guard)} alone"
        return f"nothing guards {show(words[2])}: a lock that is held at each access would help"

    def note(self, number: int, words: Words) -> None:
        # an event that can't happen is told before one that doesn't fit
        me = self.threads.setdefault(words[0], Thread())
        outermost = me.blocks[0] if me.blocks else (words[2], number) if words[1] == b"begin" else None
        committed = me.commit
        kind = self.turn(number, words)
        if kind == "bare" or (committed and kind not in ("left", "both")):
            self.refuse(number, words, self.helps(words, kind), outermost)
        if not me.blocks:
            me.commit = None
        elif kind in ("left", "other") and not me.commit:
            me.commit = number

    def refuse(self, number: int, words: Words, helps: str, outermost: Optional[tuple[bytes, int]]) -> None:
        """Tells that a thread may be cut before this event, with what it was in before it."""
        lines = [self.line(number, "error", f"{show(words[0])} may be cut before this event")]
        if outermost is not None:
            lines.append(self.line(outermost[1], "note", f"{show(outermost[0])} begins here"))
        committed = self.threads[words[0]].commit
        if committed:
            lines.append(self.line(committed, "note", "after this event others may see the block"))
        raise Refused(2, *lines, self.line(number, "note", helps))

    def end(self, number: int) -> None:
        """Tells a thread that is inside a block at the end, behind so many lines."""
        for thread, me in self.threads.items():
            if me.blocks:
                name, began = me.blocks[0]
                error = self.line(number + 1, "error", f"{show(thread)} is still inside a block at the end")
                raise Refused(4, error, self.line(began, "note", f"{show(name)} begins here"))


def show(word: bytes) -> str:
    return word.decode("utf-8", "backslashreplace")


def judge(name: str, data: bytes, guards: Optional[Guards] = None) -> tuple[int, list[str]]:
    """The status and the lines for a log."""
    run, last = Judge(name, guessed(data) if guards is None else guards), 0
    try:
        for last, words in lines_of(data, is_event, "a log", name):
            run.note(last, words)
        run.end(last)
        return 0, ["serial"]
    except Refused as refused:
        return refused.status, list(refused.lines)


def guessed(data: bytes) -> Guards:
    """The guards that are guessed from a text. Rows that are no lines are passed over."""
    guess = Guess()
    for row in rows_of(data)[0]:
        words = words_of(row)
        if words is not None and is_event(words):
            guess.note(words)
    return guess.guards()


def guards_of(name: str, data: bytes) -> Guards:
    guards: Guards = {}
    for _, words in lines_of(data, is_guard, "guards", name):
        guards[words[0]] = (words[1].decode("latin1"), words[2] if len(words) == 3 else None)
    return guards


def main() -> int:
    parser = command_line.words_of(__doc__)
    parser.wrong = 9
    parser.add_argument("log", metavar="LOG", help="the log of a run")
    parser.add_argument("--guards", metavar="FILE", help="what guards each place, in place of a guess from the log")
    given = parser.parse_args()
    guards = None
    try:
        with open(given.log, "rb") as file:
            data = file.read()
        if given.guards is not None:
            with open(given.guards, "rb") as file:
                guards = guards_of(given.guards, file.read())
    except OSError as error:
        print(f"cannot read {error.filename}")
        return 6
    except Refused as refused:
        print("\n".join(refused.lines))
        return refused.status
    status, lines = judge(given.log, data, guards)
    print("\n".join(lines))
    return status


if __name__ == "__main__":
    sys.exit(main())
