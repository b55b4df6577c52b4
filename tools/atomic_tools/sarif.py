"""The command `atomic-sarif`: what `atomic_why` says of sources, where builds read it.

It writes SARIF 2.1.0, or the lines that a GitHub build shows beside the code. Each refused method is one result. It
stands at the first step or access that `atomic_why` names, with the rule's id; the method's name and the other places
are related ones. The messages are the texts of `atomic_why`. Columns are counted in characters, as both readers do.
"""
from __future__ import annotations

import argparse
import hashlib
import json
import os
import urllib.parse
from typing import Any, NoReturn, Optional

from .command import Answer, Words, run, with_output, words_of
from .results import IDS, RULES, Place, Result, Rule, names_from_input, results_of_files, results_of_input
from .version import version

ABOUT = """Writes what `atomic_why` says of sources where builds read it: as SARIF 2.1.0, or with --github as the
        lines that a GitHub build shows beside the code. Each refused method is one result, at the first step or
        access that `atomic_why` names."""
BEHIND = """`git ls-files -z '*.java' | atomic-sarif -z` takes any names, also those with blanks and ends of lines in
         them.

         The status is 0 where nothing is refused, 1 where something is, 2 where the words are wrong, and 3 where
         something failed. Then nothing is written."""
SCHEMA = "https://json.schemastore.org/sarif-2.1.0.json"
# what the lines of GitHub mean by themselves
GITHUB_SIGNS = "%:,"


# SARIF.


def uri(name: str) -> str:
    path = urllib.parse.quote(os.fsencode(name.replace(os.sep, "/")))
    return f"file://{path}" if os.path.isabs(name) else path


def region(place: Place) -> dict[str, int]:
    given = {"startLine": place.line, "startColumn": place.column, "endColumn": place.end}
    return {key: number for key, number in given.items() if number is not None}


def location(place: Place) -> dict[str, Any]:
    physical: dict[str, Any] = {"artifactLocation": {"uri": uri(place.file)}}
    if place.line is not None:
        physical["region"] = region(place)
    return {"physicalLocation": physical}


def sarif_result(result: Result, mark: str) -> dict[str, Any]:
    told: dict[str, Any] = {
        "ruleId": result.rule,
        "ruleIndex": IDS.index(result.rule),
        "level": result.level,
        "message": {"text": result.message},
        "locations": [location(result.place)],
        "partialFingerprints": {"atomicMethod/v1": mark},
    }
    if result.related:
        told["relatedLocations"] = [
            {"id": number, **location(place), "message": {"text": text}}
            for number, (place, text) in enumerate(result.related, 1)
        ]
    return told


def marks_of(results: list[Result]) -> list[str]:
    """A mark of each result that stays the same while lines move: of its file, its rule, its message, and how often
    these stood before."""
    seen: dict[str, int] = {}
    marks = []
    for result in results:
        words = "\0".join([uri(result.place.file), result.rule, result.message])
        digest = hashlib.sha256(words.encode("utf-8", "surrogateescape")).hexdigest()[:32]
        seen[digest] = seen.get(digest, 0) + 1
        marks.append(f"{digest}:{seen[digest]}")
    return marks


def sarif_rule(rule: Rule) -> dict[str, Any]:
    return {
        "id": rule.name,
        "shortDescription": {"text": rule.says},
        "help": {"text": rule.help},
        "defaultConfiguration": {"level": rule.level},
    }


def sarif(results: list[Result]) -> str:
    driver = {"name": "atomic_why", "version": version(), "rules": [sarif_rule(rule) for rule in RULES]}
    told = [sarif_result(result, mark) for result, mark in zip(results, marks_of(results))]
    ran = {"tool": {"driver": driver}, "columnKind": "unicodeCodePoints", "results": told}
    text = json.dumps({"$schema": SCHEMA, "version": "2.1.0", "runs": [ran]}, indent=2, ensure_ascii=False)
    return text.encode("utf-8", "replace").decode() + "\n"


# The lines of a GitHub build.


def escaped(text: str, signs: str) -> str:
    """Text with these signs, and with what can't be printed, as `%` and numbers."""
    return "".join(percents(sign) if sign in signs or not sign.isprintable() else sign for sign in text)


def percents(sign: str) -> str:
    return "".join(f"%{byte:02X}" for byte in sign.encode("utf-8", "surrogateescape"))


def annotation(word: str, place: Place, title: str, text: str) -> str:
    given = {"file": place.file, "line": place.line, "col": place.column, "endColumn": place.end, "title": title}
    words = ",".join(f"{key}={escaped(str(value), GITHUB_SIGNS)}" for key, value in given.items() if value)
    return f"::{word} {words}::{escaped(text, '%')}\n"


def github(results: list[Result]) -> str:
    out = []
    for result in results:
        out.append(annotation(result.level, result.place, result.rule, "; ".join([result.message, *result.helps()])))
        out += [annotation("notice", place, result.rule, "; ".join(texts)) for place, texts in result.others()]
    return "".join(out)


# The command.


def results_asked(parser: Words, words: argparse.Namespace) -> list[Result]:
    if words.null:
        if words.files:
            parser.error("-z reads names from standard input, so no FILE can stand beside it")
        return results_of_files(names_from_input())
    if not words.files:
        parser.error("no FILE is named")
    if "-" not in words.files:
        return results_of_files(words.files)
    if len(words.files) > 1:
        parser.error("- stands alone")
    return results_of_input()


def main(given: Optional[list[str]] = None) -> NoReturn:
    parser = words_of("atomic-sarif", ABOUT, BEHIND)
    parser.add_argument(
        "files", metavar="FILE", nargs="*", help="a source; `-` stands for lines of `atomic_why` on standard input"
    )
    parser.add_argument("--github", action="store_true", help="write lines for a GitHub build in place of SARIF")
    parser.add_argument(
        "-z", "--null", action="store_true", help="read the names from standard input, each with a zero byte behind it"
    )
    with_output(parser)

    def command(words: argparse.Namespace) -> Answer:
        results = results_asked(parser, words)
        refused = any(result.level == "error" for result in results)
        return Answer(github(results) if words.github else sarif(results), 1 if refused else 0, words.output)

    run(parser, given, command)
