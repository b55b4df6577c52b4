"""Trees of atomicities, and the books that `atomic derive` writes of them.

A tree is a basic, or a path with the tree where it is held and the tree where it isn't. A path is a slot and fields,
in numbers.
"""
from __future__ import annotations

import re
from typing import Tuple, Union

BASICS = ["const", "mover", "atomic", "cmpd", "error"]

Path = Tuple[int, ...]
Tree = Union[str, Tuple[Path, "Tree", "Tree"]]


def tree_of_book(text: str) -> Tree:
    """`(0.1 mover atomic)`: paths in numbers."""
    tokens = re.findall(r"[()]|[^\s()]+", text)

    def read(place: int) -> tuple[Tree, int]:
        if tokens[place] != "(":
            return tokens[place], place + 1
        path = tuple(int(number) for number in tokens[place + 1].split("."))
        held, place = read(place + 2)
        free, place = read(place)
        return (path, held, free), place + 1

    return read(0)[0]


class Book:
    """A book: the tree of each method, and of each of its parts, by their numbers."""

    def __init__(self, text: str) -> None:
        lines = text.split("\n")[:-1]
        count = int(lines[0].split()[1])
        self.trees = [tree_of_book(line) for line in lines[1 : count + 1]]
        heads, bodies = lines[count + 1 : -1 : 2], lines[count + 2 : -1 : 2]
        self.methods = [self.trees[int(head.split()[2])] for head in heads]
        self.words: list[list[str]] = [re.findall(r"\((\w+)", body) for body in bodies]
        self.parts = [[self.trees[int(number)] for number in re.findall(r"\(\w+ (\d+)", body)] for body in bodies]


def value(tree: Tree, held: frozenset[Path]) -> str:
    """The basic of a tree where these paths are held."""
    while not isinstance(tree, str):
        tree = tree[1] if tree[0] in held else tree[2]
    return tree


def paths_in(tree: Tree) -> set[Path]:
    """The paths that a tree asks for."""
    if isinstance(tree, str):
        return set()
    return {tree[0]} | paths_in(tree[1]) | paths_in(tree[2])
