#!/usr/bin/env python3
"""Writes a level for each class of a source, rising from 1 in source order; a class has that of the class that
it extends. A text for `levels` to be timed with: nothing says that it orders the program."""
from __future__ import annotations

import re

from command_line import words_of


def main() -> None:
    parser = words_of(__doc__)
    parser.add_argument("source", metavar="SOURCE")
    with open(parser.parse_args().source, encoding="utf-8") as source:
        above = dict(re.findall(r"\bclass\s+(\w+)(?:\s+extends\s+(\w+))?", source.read()))
    level = {name: place for place, name in enumerate(above, 1)}
    for name in above:
        top = name
        while above[top]:
            top = above[top]
        print(name, level[top])


if __name__ == "__main__":
    main()
