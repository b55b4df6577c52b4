#!/usr/bin/env python3
"""count_witnesses.py ATOMIC WHY WITNESS: in how many refused sources `atomic_witness` finds a witness.

They are the refused examples, as they stand; and the refused sources in the tables of docs/why.md and docs/repairs.md,
under two threads that call the refused method once each, on one object. For each it tells the answer and the seconds.
"""
from __future__ import annotations

import collections
import os
import re
import subprocess
import tempfile
import time
from collections.abc import Iterator

from command_line import PROGRAM, TOP, WHY, program_of, words_of
from documents import source_of, table_rows

EXAMPLES = os.path.join(TOP, "examples")
HEAD = re.compile(r"error: (\w+)\.(\w+) is declared")
ASKER = """class Asker implements Runnable { final TYPE on; Asker(TYPE on) { this.on = on; }
public void run() { this.on.CALL(); } }
class Main { void main() { final TYPE on = new TYPE();
new Thread(new Asker(on)).start(); new Thread(new Asker(on)).start(); } }
"""


class Programs:
    def __init__(self, atomic: str, why: str, witness: str, folder: str) -> None:
        self.atomic, self.why, self.witness = atomic, why, witness
        self.path = os.path.join(folder, "source.java")

    def ran(self, *words: str) -> tuple[int, str]:
        done = subprocess.run(words, capture_output=True, check=False)
        return done.returncode, done.stdout.decode()

    def write(self, text: str) -> str:
        with open(self.path, "w", encoding="utf-8") as file:
            file.write(text)
        return self.path

    def is_refused(self, path: str) -> bool:
        return self.ran(self.atomic, "check", path)[0] == 2

    def called_twice(self, text: str) -> str:
        """The source, where two threads call its first refused method once each."""
        found = HEAD.search(self.ran(self.why, self.write(text))[1])
        assert found is not None, text
        own = re.sub(r"\bMain\b", "Own", text)
        asker = ASKER.replace("TYPE", re.sub(r"\bMain\b", "Own", found[1])).replace("CALL", found[2])
        return f"{own}\n{asker}"

    def tell(self, name: str, path: str) -> str:
        """What is found in a source."""
        begun = time.monotonic()
        status, text = self.ran(self.witness, path)
        lines = text.strip().split("\n")
        print(f"{name}: {' '.join(lines)} ({time.monotonic() - begun:.2f} s)")
        return lines[1].removeprefix("# ") if status == 2 else re.sub(r"[0-9]+", "N", lines[0])


def sources() -> Iterator[tuple[str, str]]:
    """The sources in the tables, each once, with the line that it is the source of."""
    told: set[bytes] = set()
    for page in ("why.md", "repairs.md"):
        for cells in table_rows("docs", page):
            source = source_of(cells[-1].replace("\\|", "|"))
            if b"class Main" in source and source not in told:
                told.add(source)
                yield f"{page}, {cells[0]}", source.decode()


def main() -> None:
    parser = words_of(__doc__)
    parser.add_argument("atomic", metavar="ATOMIC", type=program_of, help=PROGRAM)
    parser.add_argument("why", metavar="WHY", type=program_of, help=WHY)
    parser.add_argument("witness", metavar="WITNESS", type=program_of, help="the built `atomic_witness`, proved or not")
    given = parser.parse_args()
    with tempfile.TemporaryDirectory() as folder:
        programs = Programs(given.atomic, given.why, given.witness, folder)
        paths = [os.path.join(EXAMPLES, name) for name in sorted(os.listdir(EXAMPLES)) if name.endswith(".java")]
        refused = [path for path in paths if programs.is_refused(path)]
        counts = [("examples", collections.Counter(programs.tell(os.path.basename(path), path) for path in refused))]
        pairs = [(name, text) for name, text in sources() if programs.is_refused(programs.write(text))]
        texts = [(name, programs.called_twice(text)) for name, text in pairs]
        kept = [(name, text) for name, text in texts if programs.is_refused(programs.write(text))]
        counts.append(("tables", collections.Counter(programs.tell(name, programs.write(text)) for name, text in kept)))
    for kind, count in counts:
        print(f"{kind}: {sum(count.values())}")
        for told, times in count.most_common():
            print(f"  {times} times {told}")


if __name__ == "__main__":
    main()
