#!/usr/bin/env python3
"""Draws a schedule as lanes, one for each thread; time goes from left to right: lanes.py < STEPS > PICTURE.svg.

A line of STEPS is a thread's number and what it does. `1 call NAME` and `1 end NAME` are drawn as a frame around what
stands between them; every other line is a cell. A line may also be a schedule, as `0*10 1*3 2`, with a cell for each
entry. Lines that begin with `#` say nothing.
"""
from __future__ import annotations

import argparse
import re
import sys
from collections.abc import Iterable
from html import escape
from typing import NamedTuple

WIDTH, HEIGHT, GAP, LEFT, TOP = 92, 34, 46, 84, 40
COLOURS = ["#dbe9f6", "#fbe3d0", "#dff0d8", "#f3dff0"]


class Frame(NamedTuple):
    """A call: its thread, its name, and its columns from the first to the one behind the last."""

    thread: int
    name: str
    first: int
    end: int


# a thread and what it does
Cell = tuple[int, str]


def box(corner: tuple[int, int], size: tuple[int, int], style: str, text: str) -> str:
    (x, y), (width, height) = corner, size
    label = f'<text x="{x + width / 2:g}" y="{y + 21:g}" text-anchor="middle">{escape(text)}</text>' if text else ""
    return f'<rect x="{x:g}" y="{y:g}" width="{width:g}" height="{height:g}" rx="4" {style}/>{label}'


def read(lines: Iterable[str]) -> tuple[list[Cell], list[Frame]]:
    """The cells and the frames, each with its thread and its columns."""
    cells: list[Cell] = []
    frames: list[Frame] = []
    opened: dict[tuple[int, str], int] = {}
    for line in lines:
        words = line.split()
        if not words or words[0].startswith("#"):
            continue
        if all(re.fullmatch(r"\d+(\*\d+)?", word) for word in words):
            for number, _, times in (word.partition("*") for word in words):
                cells.append((int(number), f"{times} steps" if times else "1 step"))
            continue
        thread, what = int(words[0]), " ".join(words[1:])
        if words[1] == "call":
            opened[thread, words[2]] = len(cells)
        elif words[1] == "end":
            frames.append(Frame(thread, words[2], opened.pop((thread, words[2])), len(cells)))
        else:
            cells.append((thread, what))
    return cells, frames


def picture(cells: list[Cell], frames: list[Frame]) -> str:
    threads = sorted({thread for thread, _ in cells})
    lane = {thread: TOP + k * (HEIGHT + GAP) for k, thread in enumerate(threads)}
    width, height = LEFT + WIDTH * len(cells) + 12, TOP + len(threads) * (HEIGHT + GAP) - 10
    parts = [
        f'<svg xmlns="http://www.w3.org/2000/svg" width="{width}" height="{height}" '
        'font-family="sans-serif" font-size="13">',
        f'<rect width="{width}" height="{height}" fill="#ffffff"/>',
    ]
    for thread in threads:
        parts.append(f'<text x="8" y="{lane[thread] + 21}">thread {thread}</text>')
    for thread, name, first, end in frames:
        x, y = LEFT + WIDTH * first - 3, lane[thread] - 22
        style = 'fill="none" stroke="#555555" stroke-dasharray="5 3"'
        parts.append(box((x, y), (WIDTH * (end - first) - 2, HEIGHT + 28), style, ""))
        parts.append(f'<text x="{x + 6}" y="{y + 15}" fill="#555555">{escape(name)}</text>')
    for column, (thread, what) in enumerate(cells):
        fill = COLOURS[threads.index(thread) % len(COLOURS)]
        style = f'fill="{fill}" stroke="#777777"'
        parts.append(box((LEFT + WIDTH * column, lane[thread]), (WIDTH - 8, HEIGHT), style, what))
    return "\n".join(parts + ["</svg>", ""])


if __name__ == "__main__":
    form = argparse.RawDescriptionHelpFormatter
    argparse.ArgumentParser(description=__doc__, formatter_class=form).parse_args()
    sys.stdout.write(picture(*read(sys.stdin)))
