#!/usr/bin/env python3
"""Gives checkouts (this one, where none is named) each library that `rt ci` has kept on this machine, with the stamp
by which `rt check` takes it as built. `rt check` by itself takes only what another checkout's `rt check` built, and
proves the rest anew.

A library is taken from the store only under the sum of its files and of the libraries below it, as the gate takes it.
It is no verdict."""
from __future__ import annotations

import importlib.machinery
import importlib.util
import os
import shutil
import subprocess
import time
from typing import Any

from command_line import TOP, count_of, words_of


def load_tool() -> Any:
    """The toolchain's command, as a module."""
    kit = os.path.dirname(subprocess.run(["rt", "doc"], capture_output=True, text=True, check=True).stdout.strip())
    loader = importlib.machinery.SourceFileLoader("tool", f"{kit}/bin/rt")
    spec = importlib.util.spec_from_loader("tool", loader)
    assert spec is not None
    tool = importlib.util.module_from_spec(spec)
    loader.exec_module(tool)
    return tool


def give(kept: Any, crate: Any) -> bool:
    """Puts what is kept of a library in its place, and returns whether there was any."""
    key = kept.key(crate)
    if not os.path.isdir(kept.place(crate, False, key)):
        return False
    shutil.rmtree(f"{crate.folder}/out/rlib", ignore_errors=True)
    if not kept.give(crate, False, key):
        return False
    with open(f"{crate.folder}/out/rlib/stamp", "w", encoding="utf-8") as it:
        it.write(crate.stamp())
    return True


def give_all(tool: Any, folder: str) -> list[str]:
    """Gives a checkout what is kept, lowest first, and returns the names of what is new there."""
    crates = tool.rtlib.crates_below(folder)
    kept = tool.Kept(crates)
    ready: set[str] = set()
    new: list[str] = []
    for crate in sorted(crates, key=lambda it: len(it.below())):
        if crate.is_program or crate.is_static or any(it.name not in ready for it in crate.below()):
            continue
        if not crate.is_built():
            if not give(kept, crate):
                continue
            new.append(crate.name)
        kept.is_built(crate)
        ready.add(crate.name)
    return new


def main() -> None:
    parser = words_of(__doc__)
    parser.add_argument(
        "--again", metavar="SECONDS", type=count_of, default=0, help="go on, and look every so many seconds"
    )
    parser.add_argument("folders", metavar="FOLDER", nargs="*", help="checkouts; this one, where none is named")
    given = parser.parse_args()
    tool = load_tool()
    while True:
        for folder in [os.path.abspath(name) for name in given.folders] or [TOP]:
            new = give_all(tool, folder)
            if new:
                print(f"{folder}: {' '.join(new)}", flush=True)
        if not given.again:
            return
        time.sleep(given.again)


if __name__ == "__main__":
    main()
