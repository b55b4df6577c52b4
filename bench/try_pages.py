#!/usr/bin/env python3
"""Opens pages in Debian's chromium as a reader would, and tells what is wrong: of each example, with its schedule and
its witness, at two widths, light and dark; of a schedule of 400 entries; and of sources of 262,144 bytes, which have
to open within two seconds of the processor time of the page's thread (time from begin to end is told beside it; load
makes it longer). On each page it points at every kind of part, ticks the boxes, moves the slider and presses the
keys. Nothing may be logged as an error or a warning, and at no width may the page be wider than the window. With
FOLDER the pictures are kept there. The exit status is 0 where all of that held.
"""
from __future__ import annotations

import os
import random
import subprocess
import sys
import tempfile
from typing import Optional

from browser import Browser
from command_line import HERE, PROGRAM, TOOLS, TOP, WHY, program_of, words_of

from atomic_tools.machine import Machine
from atomic_tools.schedules import written
from atomic_tools.source import Source

EXAMPLES = os.path.join(TOP, "examples")
LARGE = "classes methods statements locks paths calls chain cycle line heirs inherited".split()
LIMIT = 2000
TOUCH = """(() => { let touched = 0; for (const part of [...document.querySelectorAll(".listing [title], .listing
        [data-w]")].slice(0, 300)) { part.dispatchEvent(new MouseEvent("mouseover", { bubbles: true })); touched +=
        document.querySelectorAll("#panel .b").length; } for (const box of [...document.querySelectorAll(".boxes
        input:not(:disabled)")].slice(0, 100)) box.click(); document.querySelector(".listing")?.dispatchEvent(new
        KeyboardEvent("keydown", { key: "ArrowRight", bubbles: true })); for (const button of
        document.querySelectorAll("button")) button.click(); const slider = document.getElementById("front"); for
        (const place of slider ? [0, 1, slider.max / 2, slider.max] : []) { slider.value = place;
        slider.dispatchEvent(new Event("input")); } return touched; })()"""


def output(words: list[str], folder: str, environment: dict[str, str]) -> bytes:
    done = subprocess.run([sys.executable, *words], cwd=folder, env=environment, capture_output=True, check=False)
    if done.returncode:
        raise SystemExit(f"{' '.join(words)}: {done.stderr.decode()}")
    return done.stdout


def four_hundred(path: str) -> None:
    """A source with three threads, and a schedule of it of 400 entries in which they change places at random."""
    with open(os.path.join(EXAMPLES, "counter.java"), encoding="ascii") as file:
        text = file.read().replace("this.c.inc();", "int i = 0; while (i < 20) { this.c.inc(); i = i + 1; }", 1)
    machine, chooser, thread = Machine(Source(text.encode())), random.Random(5), 0
    schedule: list[int] = []
    while len(schedule) < 400:
        if chooser.random() < 0.25 or not machine.can_step(thread):
            thread = chooser.choice([k for k in range(len(machine.threads)) if machine.can_step(k)])
        machine.step(thread)
        schedule.append(thread)
    for name, words in (("source.java", text), ("source.schedule", written(schedule))):
        with open(os.path.join(path, name), "w", encoding="ascii") as file:
            file.write(words)


class Trial:
    def __init__(self, browser: Browser, environment: dict[str, str], folder: str, pictures: Optional[str]) -> None:
        self.browser, self.environment, self.folder, self.pictures = browser, environment, folder, pictures
        self.wrong, self.count = 0, 0

    def expect(self, what: str, holds: object, told: object = "") -> None:
        self.count += 1
        if not holds:
            self.wrong += 1
            print(f"{what}: {told}")

    def page(self, words: list[str], folder: str) -> str:
        path = os.path.join(self.folder, "page.html")
        with open(path, "wb") as file:
            file.write(output([os.path.join(TOOLS, "atomic-page"), *words], folder, self.environment))
        return path

    def small(self, words: list[str], folder: str) -> None:
        path = self.page(words, folder)
        for width, dark in ((1280, False), (390, True)):
            page = self.browser.open(path, width, 900, dark)
            touched = page.run(TOUCH)
            name = f"{' '.join(words)} at {width}"
            self.expect(name, not page.logged, page.logged)
            self.expect(
                f"{name}: pointing", touched or not page.run("document.querySelector('#panel')"), "nothing is told"
            )
            self.expect(
                f"{name}: width",
                page.run("document.documentElement.scrollWidth <= innerWidth"),
                "the page is wider than the window",
            )
            if self.pictures:
                page.picture(os.path.join(self.pictures, f"{'_'.join(words)}_{width}.png"))

    def large(self, kind: str) -> None:
        source = output([os.path.join(HERE, "make_checked.py"), kind], HERE, self.environment)
        name = os.path.join(self.folder, "large.java")
        with open(name, "wb") as file:
            file.write(source)
        path = self.page([name], self.folder)
        page = self.browser.open(path)
        work = page.work["TaskDuration"]
        size, whole = os.path.getsize(path), page.milliseconds
        said = f"{len(source)} bytes, page of {size}, {work:.0f} ms of its thread, {whole:.0f} ms from begin to end"
        print(f"{kind}: {said}", flush=True)
        self.expect(kind, work <= LIMIT, f"{work:.0f} ms")
        self.expect(kind, page.run(TOUCH) and not page.logged, page.logged)


def main() -> None:
    parser = words_of(__doc__)
    parser.add_argument("program", metavar="PROGRAM", type=program_of, help=PROGRAM)
    parser.add_argument("why", metavar="WHY", type=program_of, help=WHY)
    parser.add_argument("pictures", metavar="FOLDER", nargs="?", help="keep a picture of each page here")
    given = parser.parse_args()
    environment, pictures = {**os.environ, "ATOMIC": given.program, "ATOMIC_WHY": given.why}, given.pictures
    if pictures:
        os.makedirs(pictures, exist_ok=True)
    names = sorted(os.listdir(EXAMPLES))
    with tempfile.TemporaryDirectory() as folder, Browser() as browser:
        trial = Trial(browser, environment, folder, pictures)
        for name in (name for name in names if name.endswith(".java")):
            stem = name[: -len(".java")]
            for words in [[name]] + [
                [name, other] for other in names if other in (stem + ".schedule", stem + ".witness")
            ]:
                trial.small(words, EXAMPLES)
        four_hundred(folder)
        trial.small(["source.java", "source.schedule"], folder)
        for kind in LARGE:
            trial.large(kind)
    print(f"{trial.count} looks, {trial.wrong} wrong")
    sys.exit(1 if trial.wrong else 0)


if __name__ == "__main__":
    main()
