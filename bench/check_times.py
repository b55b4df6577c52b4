#!/usr/bin/env python3
"""Where the time of the last `rt check` of a crate went. The check leaves a file for each module that it made
(`out/incremental`), and the times at which these were written tell how long each took: by the kind of module, by
function, by module. Wall seconds, so run the check alone and with `--jobs 1`. What an earlier check had kept isn't
counted: for the whole crate remove `out` first."""
from __future__ import annotations

import collections
import os
import re

from command_line import count_of, words_of


class Seconds(collections.defaultdict[str, float]):
    """Seconds by names."""

    def __init__(self) -> None:
        super().__init__(float)

    def most_common(self, count: int) -> list[tuple[str, float]]:
        return sorted(self.items(), key=lambda one: -one[1])[:count]


def modules(folder: str) -> list[tuple[int, str]]:
    """The modules' names and the moments at which they were written, in order."""
    found = []
    for at, _, names in os.walk(folder):
        found += [(os.stat(f"{at}/{it}").st_mtime_ns, it) for it in names if it.endswith(".oantt")]
    return sorted(found)


def table(title: str, seconds: Seconds, count: int) -> None:
    print(title)
    for name, took in seconds.most_common(count):
        print(f"{took:9.1f}  {name}")


def main() -> None:
    parser = words_of(__doc__)
    parser.add_argument("crate", metavar="CRATE", help="the folder of the crate")
    parser.add_argument(
        "count", metavar="COUNT", type=count_of, nargs="?", default=20, help="so many of each kind (20)"
    )
    given = parser.parse_args()
    kinds, functions, each = Seconds(), Seconds(), Seconds()
    written = modules(f"{given.crate}/out/incremental")
    for (before, _), (moment, name) in zip(written, written[1:]):
        took = (moment - before) / 1e9
        parts = name.removesuffix(".oantt").removesuffix(".decls").split(".")
        kinds[re.sub(r"-.*", "", parts[-1])] += took
        functions[".".join(parts[1:-1])] += took
        each[".".join(parts[1:])] += took
    print(f"{sum(kinds.values()):.0f} seconds")
    table("by kind", kinds, 12)
    table("by function", functions, given.count)
    table("by module", each, given.count)


if __name__ == "__main__":
    main()
