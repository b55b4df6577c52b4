#!/usr/bin/env python3
"""Runs what docs/editors.md and docs/many.md show, makes the witnesses and the pages of all examples anew, and tells
each difference.

It needs chromium for nothing: each picture in docs/ holds the digest of the page that it was taken of
(bench/pictures.py). Vim, git, make and parallel are left out where they aren't there, and that is said. The exit
status is 0 where all is as the documents say.

check_docs.py does the same by itself where there are an `atomic_why` and an `atomic_witness`.
"""
from __future__ import annotations

import json
import os
import re
import shutil
import subprocess
import sys
import tempfile
import xml.etree.ElementTree
from html.parser import HTMLParser
from typing import Any, Optional

from command_line import HERE, PROGRAM, TOOLS, TOP, WHY, program_of, words_of
from documents import blocks, read, source_of, table_rows
from pictures import PICTURES, digest_in, digest_of_page

from atomic_tools.lines import facts
from atomic_tools.programs import program

EXAMPLES = os.path.join(TOP, "examples")
GCC = re.compile(r"^(.*?):(\d+):(\d*):?\s+(?:fatal\s+)?(warning|error):\s+(.*)$")
SCRIPTS = ("atomic-page", "atomic-witness", "atomic-sarif")
Ended = tuple[int, str, str]


class Balanced(HTMLParser):
    """Whether each element ends as it begins."""

    def __init__(self) -> None:
        super().__init__()
        self.open: list[str] = []
        self.wrong: list[str] = []

    def handle_starttag(self, tag: str, attrs: list[tuple[str, Optional[str]]]) -> None:
        self.open.append(tag)

    def handle_startendtag(self, tag: str, attrs: list[tuple[str, Optional[str]]]) -> None:
        pass

    def handle_endtag(self, tag: str) -> None:
        if not self.open or self.open.pop() != tag:
            self.wrong.append(tag)


class ToolsChecker:
    def __init__(self, atomic: str, why: str, folder: str) -> None:
        self.folder, self.count, self.wrong = folder, 0, 0
        self.left: list[str] = []
        self.bin, self.examples = os.path.join(folder, "bin"), os.path.join(folder, "examples")
        os.mkdir(self.bin)
        shutil.copytree(EXAMPLES, self.examples)
        links = {"atomic": atomic, "atomic_why": why, "atomic_witness": program("atomic_witness") or ""}
        links.update({name: os.path.join(TOOLS, name) for name in SCRIPTS})
        for name, path in links.items():
            os.symlink(os.path.abspath(path), os.path.join(self.bin, name))
        self.environment = {
            **os.environ,
            "PATH": self.bin + os.pathsep + os.environ["PATH"],
            "ATOMIC": atomic,
            "ATOMIC_WHY": why,
        }

    def run(self, command: str, folder: Optional[str] = None) -> Ended:
        """A command line: its status and what it wrote."""
        place = folder or self.examples
        done = subprocess.run(
            command,
            shell=True,
            cwd=place,
            env=self.environment,
            capture_output=True,
            stdin=subprocess.DEVNULL,
            check=False,
        )
        return done.returncode, done.stdout.decode(), done.stderr.decode()

    def expect(self, what: str, wanted: Any, given: Any) -> None:
        self.count += 1
        if wanted != given:
            self.wrong += 1
            print(f"{what}: wanted\n{wanted}\ngiven\n{given}")

    def has(self, *names: str) -> bool:
        """Whether these programs are there; what isn't is told at the end."""
        lacking = [name for name in names if shutil.which(name) is None]
        self.left += lacking
        return not lacking

    # Documents.

    def commands(self, *names: str) -> None:
        """The blocks that begin with a command line."""
        block = r"^```\n\$ (atomic(?:_|-(?!java)).*)\n((?:.*\n)*?)```$"
        for command, text in re.findall(block, read(*names), re.MULTILINE):
            self.expect(f"{os.path.join(*names)}: {command}", text, self.run(command)[1])

    def manuals(self) -> None:
        """The examples of the manual pages, in the folder above the examples and in it."""
        for name, folder in (("atomic.1", self.folder), ("atomic_why.1", self.examples)):
            text = "".join(re.findall(r"^\.nf\n(.*?)^\.fi$", read("docs", name), re.MULTILINE | re.DOTALL))
            for command, wanted in re.findall(r"^\$ (.*)\n((?:[^$].*\n)*)", text, re.MULTILINE):
                self.expect(f"docs/{name}: {command}", wanted, self.run(command, folder)[1])

    def why_rows(self) -> None:
        """Each row of docs/why.md with a line, and the source for it."""
        path = os.path.join(self.folder, "source")
        for row in table_rows("docs", "why.md"):
            line = re.fullmatch(r"`(\d+:\d+: .*)`", row[0])
            if line:
                with open(path, "wb") as file:
                    file.write(source_of(row[-1]))
                given = self.run("atomic_why source", self.folder)[1]
                self.expect(f"docs/why.md: {line[1]}", True, f"source:{line[1]}" in given.splitlines() or given)

    def explanations(self) -> None:
        """Each source of docs/repairs.md that is refused for its promises, and each such example, has its explanation
        there."""
        shown = re.findall(
            r"^```\n\$ cat f\.java; atomic_why f\.java\n(.*\n)((?:f\.java:.*\n)*)```$",
            read("docs", "repairs.md"),
            re.MULTILINE,
        )
        for source, text in shown:
            with open(os.path.join(self.folder, "f.java"), "w", encoding="ascii") as file:
                file.write(source)
            self.expect(f"docs/repairs.md: {source}", text, self.run("atomic_why f.java", self.folder)[1])
        refused = {
            source_of(row[-1]).decode()
            for row in table_rows("docs", "repairs.md")
            if re.fullmatch(r"`.*: declared \w+, found \w+`", row[0])
        }
        self.expect("docs/repairs.md: sources with an explanation", refused, {source.strip() for source, _ in shown})
        named = re.findall(r"^\$ atomic_why (\w+\.java)$", read("docs", "repairs.md"), re.MULTILINE)
        examples = [row[0].strip("`") for row in table_rows("examples", "README.md") if row[-1] == "2"]
        self.expect("docs/repairs.md: examples with an explanation", examples, named)

    def vim(self) -> None:
        """`:make` and `:clist` with the settings as they stand."""
        if not self.has("vim"):
            return
        settings, listed = os.path.join(self.folder, "settings.vim"), os.path.join(self.folder, "clist")
        with open(settings, "w", encoding="ascii") as file:
            file.write("set nocompatible nomore\n" + blocks("vim", "docs", "editors.md")[0])
        words = ["silent make", f"redir! > {listed}", "silent clist", "redir END", "qa!"]
        given = " ".join(f"-c '{word}'" for word in words)
        self.run(f"vim -es -u NONE -c 'edit account.java' -c 'source {settings}' {given}")
        with open(listed, encoding="utf-8") as file:
            shown = file.read().strip("\n")
        wanted = next(text for text in blocks("", "docs", "editors.md") if text.startswith(":clist\n"))
        self.expect("docs/editors.md: :clist", wanted[len(":clist\n") :].rstrip("\n"), shown)

    def code(self) -> None:
        """The task is JSON, and its matcher's pattern takes the error lines."""
        task = json.loads(blocks("json", "docs", "editors.md")[0])["tasks"][0]
        self.expect("docs/editors.md: the matcher", "$gcc", task["problemMatcher"])
        command = " ".join([task["command"], *task["args"]]).replace("${relativeFile}", "account.java")
        lines = self.run(command)[1].splitlines()
        taken = [found.groups() for found in map(GCC.match, lines) if found]
        errors = [fact for fact in facts("\n".join(lines)) if fact.word == "error"]
        coded = [(fact, f"{fact.text} [{fact.code}]") for fact in errors]
        wanted = [(fact.file, str(fact.line), str(fact.column), "error", text) for fact, text in coded]
        self.expect("docs/editors.md: what $gcc takes", wanted, taken)

    def hook(self) -> None:
        """The hook in a repository: a refused source, an accepted one, and a source that is staged otherwise than it
        stands."""
        if not self.has("git"):
            return
        self.expect("docs/editors.md: the hook", read("tools", "pre-commit"), blocks("sh", "docs", "editors.md")[0])
        folder = os.path.join(self.folder, "repository")
        names = "git config user.name n && git config user.email e@localhost"
        setup = f"git init -q . && {names} && cp {{0}} .git/hooks/pre-commit"
        os.mkdir(folder)
        self.run(setup.format(os.path.join(TOOLS, "pre-commit")), folder)
        copy = f"cp {EXAMPLES}/{{}} {{}} && git add {{}}"
        status, _, said = self.run(
            copy.format("unguarded.java", "unguarded.java", "unguarded.java") + " && git commit -qm one", folder
        )
        shown = next(text for text in blocks("", "docs", "editors.md") if text.startswith("unguarded.java:"))
        self.expect("docs/editors.md: a refused commit", (1, shown), (status, said))
        self.run("git rm -qf --cached unguarded.java", folder)
        status, _, said = self.run(
            copy.format("repaired.java", "'a b.java'", "'a b.java'") + " && git commit -qm two", folder
        )
        self.expect("docs/editors.md: an accepted commit", (0, ""), (status, said))
        staged = f"cp {EXAMPLES}/twice_locked.java t.java && git add t.java"
        worse = f"{staged} && cp {EXAMPLES}/twice.java t.java && git commit -qm three"
        self.expect("docs/editors.md: what is staged counts", 0, self.run(worse, folder)[0])

    def make(self) -> None:
        """The rules for make: a refused source, and one that was accepted before."""
        if not self.has("make"):
            return
        folder = os.path.join(self.folder, "made")
        os.mkdir(folder)
        with open(os.path.join(folder, "Makefile"), "w", encoding="ascii") as file:
            file.write(blocks("make", "docs", "editors.md")[0])
        self.run(f"cp {EXAMPLES}/counter.java {EXAMPLES}/unguarded.java .", folder)
        status, said, _ = self.run("make checked", folder)
        is_marked = os.path.exists(os.path.join(folder, "counter.java.checked"))
        self.expect("docs/editors.md: make", (2, True, True), (status, "declared atomic" in said, is_marked))
        self.run("rm unguarded.java", folder)
        self.expect("docs/editors.md: make again", (0, ""), self.run("make checked", folder)[:2])

    def builds(self) -> None:
        """The commands of build steps, and the SARIF that they write."""
        if not self.has("git"):
            return
        self.run("git init -q . && git add .")
        steps = [step.split("\n")[0][len("- run: ") :] for step in blocks("yaml", "docs", "editors.md")]
        self.expect("docs/editors.md: a build step", 1, self.run(steps[0])[0])
        self.expect("docs/editors.md: a build step", 0, self.run(steps[1])[0])
        with open(os.path.join(self.examples, "atomic.sarif"), encoding="utf-8") as file:
            self.sarif(json.load(file))
        rules = re.findall(r"^\| `([\w-]+)` \| (.*) \|$", read("docs", "editors.md"), re.MULTILINE)
        report = json.loads(self.run("atomic-sarif counter.java")[1])
        told = [(rule["id"], rule["shortDescription"]["text"]) for rule in report["runs"][0]["tool"]["driver"]["rules"]]
        self.expect("docs/editors.md: the rules", told, rules)

    def sarif(self, told: Any) -> None:
        """What SARIF 2.1.0 asks for, and that each place is a line of `atomic_why`."""
        run = told["runs"][0]
        rules = [rule["id"] for rule in run["tool"]["driver"]["rules"]]
        self.expect("SARIF: its version", ("2.1.0", 1), (told["version"], len(told["runs"])))
        places = set()
        for result in run["results"]:
            self.expect("SARIF: the rule", result["ruleId"], rules[result["ruleIndex"]])
            self.expect("SARIF: a message", True, bool(result["message"]["text"]) and len(result["locations"]) == 1)
            for place in result["locations"] + result.get("relatedLocations", []):
                physical = place["physicalLocation"]
                region = physical["region"]
                places.add((physical["artifactLocation"]["uri"], region["startLine"], region["startColumn"]))
        lines = "".join(
            self.run(f"atomic_why {name}")[1] for name in sorted(os.listdir(self.examples)) if name.endswith(".java")
        )
        wanted = {(fact.file, fact.line, fact.column) for fact in facts(lines)}
        self.expect("SARIF: places", sorted(wanted), sorted(places))

    def many(self) -> None:
        """The commands of docs/many.md on a few sources."""
        if not self.has("make", "parallel"):
            return
        folder = os.path.join(self.folder, "many")
        self.run(f"{sys.executable} {HERE}/many.py make {folder} 40")
        with open(os.path.join(folder, "Makefile"), "w", encoding="ascii") as file:
            file.write(blocks("make", "docs", "editors.md")[0])
        by_xargs, by_parallel, by_make, derive, verify = blocks("sh", "docs", "many.md")
        self.expect("docs/many.md: xargs", 123, self.run(by_xargs, folder)[0])
        first = self.lines(folder, "refused.txt")
        self.run(by_parallel, folder)
        self.expect("docs/many.md: parallel", sorted(first), sorted(self.lines(folder, "refused.txt")))
        self.expect("docs/many.md: make", 2, self.run(by_make, folder)[0])
        self.run(derive, folder)
        status = self.run(verify, folder)[0]
        books = int(self.run("find . -name '*.book' | wc -l", folder)[1])
        self.expect(
            "docs/many.md: books",
            (0, ["verified"] * books, True),
            (status, self.lines(folder, "verified.txt"), 0 < books < 40),
        )

    def lines(self, folder: str, name: str) -> list[str]:
        with open(os.path.join(folder, name), encoding="utf-8") as file:
            return file.read().splitlines()

    # Examples.

    def witnesses(self) -> None:
        """Each example in which a witness is found has it beside it. Each that is there runs."""
        for name in sorted(os.listdir(EXAMPLES)):
            stem, ending = os.path.splitext(name)
            if ending != ".java":
                continue
            status, text, _ = self.run(f"atomic-witness {name}")
            path = os.path.join(EXAMPLES, stem + ".witness")
            kept = read("examples", stem + ".witness") if os.path.exists(path) else None
            if status == 0:
                self.expect(f"examples/{stem}.witness", text, kept)
            if kept is not None:
                self.expect(f"examples/{stem}.witness runs", 0, self.run(f"atomic run {name} {stem}.witness")[0])

    def pages(self) -> None:
        """A page of each example, with its schedules, is well-formed."""
        names = sorted(os.listdir(EXAMPLES))
        for name in (name for name in names if name.endswith(".java")):
            stem = name[: -len(".java")]
            schedules = [other for other in names if other in (stem + ".schedule", stem + ".witness")]
            for words in [name] + [f"{name} {schedule}" for schedule in schedules]:
                status, page, said = self.run(f"atomic-page {words}")
                self.expect(f"atomic-page {words}", (0, ""), (status, said))
                self.expect(f"atomic-page {words}: well-formed", [], self.faults(page))

    def faults(self, page: str) -> list[str]:
        """What isn't well-formed in a page, as HTML and as XML."""
        try:
            xml.etree.ElementTree.fromstring(page)
        except xml.etree.ElementTree.ParseError as error:
            return [str(error)]
        reader = Balanced()
        reader.feed(page)
        reader.close()
        return reader.wrong + reader.open

    def pictures(self) -> None:
        """Each picture was taken of the page that is made now."""
        for name, words in PICTURES.items():
            page = self.run(f"atomic-page {words}")[1]
            self.expect(
                f"docs/{name} (bench/pictures.py takes it anew)",
                digest_of_page(page),
                digest_in(os.path.join(TOP, "docs", name)),
            )

    def completion(self) -> None:
        """The words that bash completes are those of the usage line."""
        usage = self.run("atomic")[1]
        words = re.findall(r"(?:atomic|\|) ([\w-]+) ", usage)
        shown = self.run(
            'bash -c \'. "$0"; COMP_WORDS=(atomic ""); COMP_CWORD=1; _atomic; echo "${COMPREPLY[*]}"\' '
            + os.path.join(TOOLS, "atomic.bash")
        )
        self.expect("tools/atomic.bash", sorted(words), sorted(shown[1].split()))

    def usages(self) -> None:
        """Each script without words says how it is used."""
        for name in SCRIPTS:
            status, said, usage = self.run(name)
            self.expect(f"{name} without words", (2, "", True), (status, said, usage.startswith(f"usage: {name}")))

    def all(self) -> tuple[int, int]:
        self.commands("README.md")
        for name in ("tutorial.md", "repairs.md", "why.md", "editors.md", "many.md", "witness.md"):
            self.commands("docs", name)
        for check in (
            self.manuals,
            self.why_rows,
            self.explanations,
            self.vim,
            self.code,
            self.hook,
            self.make,
            self.builds,
            self.many,
        ):
            check()
        for check in (self.witnesses, self.pages, self.pictures, self.completion, self.usages):
            check()
        for name in self.left:
            print(f"left out, since there is no {name}")
        return self.count, self.wrong


def checked(atomic: str, why: Optional[str] = None) -> Optional[tuple[int, int]]:
    """How many answers of the scripts were looked at, and how many were wrong; None where a program that they ask isn't
    there."""
    why = why or program("atomic_why")
    if why is None or program("atomic_witness") is None:
        return None
    with tempfile.TemporaryDirectory() as folder:
        return ToolsChecker(os.path.abspath(atomic), os.path.abspath(why), folder).all()


def main() -> None:
    words = words_of(__doc__)
    words.add_argument("program", metavar="PROGRAM", type=program_of, help=PROGRAM)
    words.add_argument(
        "why", metavar="WHY", type=program_of, nargs="?", help=WHY + "; else the one that the scripts of tools/ find"
    )
    given = words.parse_args()
    found = checked(given.program, given.why)
    if found is None:
        sys.exit("there is no atomic_why or no atomic_witness")
    print(f"{found[0]} answers of scripts, {found[1]} wrong")
    sys.exit(1 if found[1] else 0)


if __name__ == "__main__":
    main()
