"""Which version of these scripts this is, in the form that a package's version has: `0.COUNT+gHASH`."""
from __future__ import annotations

import os
import subprocess

from . import RELEASE

HERE = os.path.dirname(os.path.realpath(__file__))


def version() -> str:
    """The version that the package wrote down; of a checkout the one of its commit."""
    try:
        with open(os.path.join(HERE, "VERSION"), encoding="ascii") as file:
            return file.read().strip()
    except OSError:
        return of_checkout() or RELEASE


def of_checkout() -> str:
    """Of a folder without git, or outside of a checkout, nothing."""
    count, name = said_by_git("rev-list", "--count", "HEAD"), said_by_git("rev-parse", "--short=12", "HEAD")
    if not count or not name:
        return ""
    return f"{RELEASE}.{count}+g{name}" + (".changed" if said_by_git("status", "--porcelain") else "")


def said_by_git(*words: str) -> str:
    try:
        done = subprocess.run(["git", "-C", HERE, *words], capture_output=True, check=False)
    except OSError:
        return ""
    return done.stdout.decode("ascii", "replace").strip() if done.returncode == 0 else ""
