"""What the schema of SARIF 2.1.0 asks for, of the properties that `atomic-sarif` writes: OASIS's document, sections
3.13 to 3.52.

    faults(told)      what a report breaks, each with its place; none of a good one

A rule is a kind of value. An object has no properties but those that are named here, since a property that the schema
knows under another form would else pass; those that end in `!` have to be there.
"""
from __future__ import annotations

import re
from collections.abc import Callable
from typing import Any, Union
from urllib.parse import urlparse

Check = Callable[[Any], bool]
Rule = Union[Check, list[Any], dict[str, Any]]

LEVELS = ("none", "note", "warning", "error")


def is_text(value: Any) -> bool:
    return isinstance(value, str)


def is_from(least: int) -> Check:
    return lambda value: isinstance(value, int) and not isinstance(value, bool) and least <= value < 2**31


def is_one_of(*words: str) -> Check:
    return lambda value: value in words


def is_address(value: Any) -> bool:
    """An absolute or a relative URI reference of RFC 3986, with nothing in it that has to be escaped."""
    if not isinstance(value, str) or not re.fullmatch(r"(%[0-9A-F]{2}|[A-Za-z0-9._~:/?#\[\]@!$&'()*+,;=-])+", value):
        return False
    # a colon in the first piece of a relative one would be read as a scheme
    return urlparse(value).scheme in ("", "file", "https") and (":" not in value.split("/")[0] or "://" in value)


def is_map_of_text(value: Any) -> bool:
    return isinstance(value, dict) and all(
        isinstance(key, str) and isinstance(known, str) for key, known in value.items()
    )


MESSAGE: Rule = {"text!": is_text}
REGION: Rule = {"startLine!": is_from(1), "startColumn": is_from(1), "endColumn": is_from(1)}
PHYSICAL: Rule = {"artifactLocation!": {"uri!": is_address}, "region": REGION}
LOCATION: Rule = {"id": is_from(0), "physicalLocation!": PHYSICAL, "message": MESSAGE}
RULE: Rule = {
    "id!": is_text,
    "shortDescription!": MESSAGE,
    "help!": MESSAGE,
    "defaultConfiguration": {"level!": is_one_of(*LEVELS)},
}
RESULT: Rule = {
    "ruleId!": is_text,
    "ruleIndex!": is_from(0),
    "level!": is_one_of(*LEVELS),
    "message!": MESSAGE,
    "locations!": [LOCATION],
    "partialFingerprints!": is_map_of_text,
    "relatedLocations": [LOCATION],
}
RUN: Rule = {
    "tool!": {"driver!": {"name!": is_text, "version!": is_text, "rules!": [RULE]}},
    "columnKind!": is_one_of("utf16CodeUnits", "unicodeCodePoints"),
    "results!": [RESULT],
}
REPORT: Rule = {"$schema!": is_address, "version!": is_one_of("2.1.0"), "runs!": [RUN]}


def broken(value: Any, rule: Rule, place: str) -> list[str]:
    """What of a value breaks its rule."""
    if isinstance(rule, list):
        if not isinstance(value, list):
            return [f"{place} is no list"]
        return [fault for number, item in enumerate(value) for fault in broken(item, rule[0], f"{place}[{number}]")]
    if isinstance(rule, dict):
        return broken_object(value, rule, place)
    return [] if rule(value) else [f"{place} is {value!r}"]


def broken_object(value: Any, rule: dict[str, Any], place: str) -> list[str]:
    if not isinstance(value, dict):
        return [f"{place} is no object"]
    rules = {key.rstrip("!"): known for key, known in rule.items()}
    faults = [f"{place} has no {key[:-1]}" for key in rule if key.endswith("!") and key[:-1] not in value]
    faults += [f"{place} has a {key}, which no rule names" for key in value if key not in rules]
    for key, known in value.items():
        if key in rules:
            faults += broken(known, rules[key], f"{place}.{key}")
    return faults


def faults(told: Any) -> list[str]:
    found = broken(told, REPORT, "report")
    return found or [
        fault for number, run in enumerate(told["runs"]) for fault in broken_links(run, f"report.runs[{number}]")
    ]


def broken_links(run: Any, place: str) -> list[str]:
    """What isn't said by the form of one property: indices, ids that are told apart, and regions that don't end
    before they begin."""
    found = []
    rules = [rule["id"] for rule in run["tool"]["driver"]["rules"]]
    if len(set(rules)) < len(rules):
        found.append(f"{place} has a rule twice")
    for number, result in enumerate(run["results"]):
        where = f"{place}.results[{number}]"
        if result["ruleIndex"] >= len(rules) or rules[result["ruleIndex"]] != result["ruleId"]:
            found.append(f"{where} has another rule's index")
        related = result.get("relatedLocations", [])
        if len({location["id"] for location in related}) < len(related):
            found.append(f"{where} has an id twice")
        found += [
            f"{where} ends before it begins" for location in result["locations"] + related if is_backwards(location)
        ]
    return found


def is_backwards(location: Any) -> bool:
    region = location["physicalLocation"].get("region", {})
    return "endColumn" in region and region["endColumn"] <= region.get("startColumn", 1)
