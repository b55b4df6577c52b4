"""The settings for others: the hook, the rule for make, the completion; and unicode escapes."""
from __future__ import annotations

import json
import os
import pty
import re
import select
import shutil
import signal
import time
import unittest

from atomic_tools.escapes import WARNING, escapes_in, warnings_of
from atomic_tools.programs import program

from .support import ACCEPTED, EVIL, REFUSED, TOOLS, TOP, InFolder, run


def block(kind: str, *names: str) -> str:
    """The first block of a document that begins with this word."""
    with open(os.path.join(TOP, *names), encoding="utf-8") as file:
        found = re.search(rf"^```{kind}\n(.*?)^```$", file.read(), re.MULTILINE | re.DOTALL)
    assert found is not None
    return found[1]


class InPath(InFolder):
    """A test with the proved programs in the path of what it runs."""

    def setUp(self) -> None:
        super().setUp()
        os.mkdir(self.path("bin"))
        for name in ("atomic", "atomic_why"):
            os.symlink(program(name) or "", self.path(f"bin/{name}"))
        self.more = {"PATH": self.path("bin") + os.pathsep + os.environ["PATH"]}
        os.mkdir(self.path("work"))

    def shell(self, text: str, more: dict[str, str]) -> tuple[int, str, str]:
        return run(["sh", "-c", text], self.path("work"), None, more)


class Escapes(InFolder):
    def test_an_even_number_of_backslashes_stands_before_one(self) -> None:
        rows = {
            b"": [],
            b"u": [],
            rb"\u": [0],
            rb"\\u": [],
            rb"\\\u": [2],
            rb"\\\\u": [],
            rb"\n\\\\\u": [6],
            rb"// \u000a": [3],
            rb"\u0041 \u0042": [0, 7],
        }
        for text, wanted in rows.items():
            with self.subTest(text=text):
                self.assertEqual(wanted, escapes_in(text))

    def test_a_warning_has_a_place(self) -> None:
        found = [(fact.line, fact.column, fact.word) for fact in warnings_of("f", b"a\n /* \\u002a/ \\u */\n\\u")]
        self.assertEqual([(2, 5, "warning"), (2, 13, "warning"), (3, 1, "warning")], found)

    def test_the_commands_warn_and_go_on(self) -> None:
        self.write("f.java", b"/* \\u002a/ */\n" + ACCEPTED)
        status, page, _ = self.run_tool("atomic-page", "f.java")
        self.assertEqual((0, 1), (status, page.count(f'<p class="line">1:4: warning: {WARNING}</p>')))
        self.assertEqual(1, page.count(f"<span>{WARNING}</span>"))
        wanted = f"::warning file=f.java,line=1,col=4,endColumn=5,title=unicode-escape::{WARNING}\n"
        self.assertEqual((0, wanted, ""), self.run_tool("atomic-sarif", "--github", "f.java"))
        result = json.loads(self.run_tool("atomic-sarif", "f.java").text)["runs"][0]["results"][0]
        self.assertEqual(("unicode-escape", "warning"), (result["ruleId"], result["level"]))
        self.write("f.java", b"/* \\u002a/ */\n" + REFUSED)
        self.assertTrue(
            self.run_tool("atomic-witness", "f.java").text.startswith(f"# f.java:1:4: warning: {WARNING}\n")
        )


class Hook(InPath):
    def setUp(self) -> None:
        super().setUp()
        self.shell("git init -q . && git config user.name n && git config user.email e@localhost", {})
        shutil.copy(os.path.join(TOOLS, "pre-commit"), self.path("work/.git/hooks/pre-commit"))

    def commit(self, more: dict[str, str]) -> tuple[int, str, str]:
        return self.shell("git add . && git commit -qm message", more)

    def test_a_refused_source_is_told_by_its_name(self) -> None:
        os.mkdir(self.path("work/said"))
        self.write("work/said/f.java", REFUSED)
        status, _, errors = self.commit(self.more)
        self.assertEqual((1, True), (status, errors.startswith("said/f.java:1:")))
        self.assertTrue(errors.endswith("said/f.java: refused\n"))

    def test_evil_names_are_names(self) -> None:
        for name in EVIL:
            self.write(f"work/{name}", REFUSED)
        status, _, errors = self.commit(self.more)
        self.assertEqual((1, len(EVIL)), (status, errors.count(": refused\n")))
        self.assertFalse(os.path.exists(self.path("work/pwned")))

    def test_accepted_sources_pass_with_a_warning_of_escapes(self) -> None:
        self.write("work/a=b c.java", b"// \\u000a \\\\u \\\\\\u\n" + ACCEPTED)
        wanted = "".join(f"a=b c.java:1:{column}: warning: {WARNING}\n" for column in (4, 17))
        self.assertEqual((0, "", wanted), self.commit(self.more))

    def test_what_is_missing_is_told(self) -> None:
        self.write("work/f.java", ACCEPTED)
        status, _, errors = self.commit({"PATH": "/usr/bin:/bin"})
        self.assertEqual((1, "pre-commit: atomic_why isn't installed, so no source was checked\n"), (status, errors))

    def test_a_program_that_fails_is_told(self) -> None:
        self.write("work/f.java", ACCEPTED)
        os.unlink(self.path("bin/atomic_why"))
        self.script("bin/atomic_why", "exit 8")
        status, _, errors = self.commit(self.more)
        self.assertEqual((1, "f.java: atomic_why ended with status 8\n"), (status, errors))

    def test_nothing_is_left_behind(self) -> None:
        os.mkdir(self.path("temporary"))
        self.write("work/f.java", REFUSED)
        self.commit({**self.more, "TMPDIR": self.path("temporary")})
        self.assertEqual([], os.listdir(self.path("temporary")))


class JavaHook(InPath):
    """The hook where the sources are Java as people write it."""

    def setUp(self) -> None:
        super().setUp()
        named = "git config user.name n && git config user.email e@localhost"
        self.shell(f"git init -q . && {named} && git config atomic.java true", {})
        shutil.copy(os.path.join(TOOLS, "pre-commit"), self.path("work/.git/hooks/pre-commit"))
        self.write("work/a b.java", b"class A { }\n")

    def commit(self, name: str) -> tuple[int, str, str]:
        return self.shell(f"git add '{name}' && git commit -qm message", self.more)

    def test_all_staged_sources_are_judged_together(self) -> None:
        self.script("bin/atomic-java", 'echo "$#:$1:$2:$3"; find . -type f | sort; [ ! -e bad.java ] || exit 2')
        self.shell("git config --add atomic.options --public && git config --add atomic.options 'a  b'", {})
        self.assertEqual((0, "", "3:--public:a  b:.\na b.java\n"), self.commit("a b.java"))
        self.write("work/bad.java", b"")
        self.write("work/other.java", b"")
        self.assertEqual((1, "", "3:--public:a  b:.\na b.java\nbad.java\n"), self.commit("bad.java"))

    def test_a_commit_without_sources_asks_nothing(self) -> None:
        self.script("bin/atomic-java", "echo asked; exit 2")
        self.write("work/text", b"")
        self.assertEqual((0, "", ""), self.commit("text"))

    def test_what_is_missing_or_fails_is_told(self) -> None:
        wanted = "pre-commit: atomic-java isn't installed, so no source was checked\n"
        self.assertEqual((1, "", wanted), self.commit("a b.java"))
        self.script("bin/atomic-java", "exit 12")
        self.assertEqual((1, "", "atomic-java ended with status 12\n"), self.commit("a b.java"))


class Make(InPath):
    def setUp(self) -> None:
        super().setUp()
        self.write("work/Makefile", block("make", "docs", "editors.md").encode())

    def test_evil_names_are_names(self) -> None:
        for name in EVIL:
            self.write(f"work/{name}", ACCEPTED)
        self.assertEqual((0, "", ""), self.shell("make checked", self.more))
        self.assertEqual(
            sorted([name + ".checked" for name in EVIL]),
            sorted(n for n in os.listdir(self.path("work")) if n.endswith(".checked")),
        )
        self.assertFalse(os.path.exists(self.path("work/pwned")))

    def test_what_is_refused_is_told_and_asked_again(self) -> None:
        self.write("work/a&b.java", REFUSED)
        self.write("work/c.java", ACCEPTED)
        for _ in range(2):
            status, text, _ = self.shell("make checked", self.more)
            self.assertEqual((2, True), (status, text.startswith("./a&b.java:1:")))
        self.assertEqual(
            ["c.java.checked"], [name for name in os.listdir(self.path("work")) if name.endswith(".checked")]
        )

    def test_what_has_not_changed_is_not_asked_again(self) -> None:
        self.write("work/f.java", ACCEPTED)
        self.set_age("work/f.java", 9)
        self.shell("make checked", self.more)
        os.unlink(self.path("bin/atomic_why"))
        self.script("bin/atomic_why", "echo asked; exit 2")
        self.assertEqual((0, ""), self.shell("make checked", self.more)[:2])
        self.set_age("work/f.java", -9)
        self.assertEqual((2, "asked\n"), self.shell("make checked", self.more)[:2])

    def set_age(self, name: str, seconds: int) -> None:
        """Sets when a file was changed: what is written within one tick of the clock has the same time."""
        then = time.time() - seconds
        os.utime(self.path(name), (then, then))


class Completion(InFolder):
    """What an interactive bash makes of a line and a tab."""

    def setUp(self) -> None:
        super().setUp()
        for name in ("a b.java", "it's.java", "p$q.java", "a b.schedule", "x.book", "a b.blame"):
            self.write(name, b"")

    def completed(self, line: str) -> str:
        """The line behind the tab, as readline has it."""
        process, terminal = pty.fork()
        if process == 0:
            os.chdir(self.folder)
            os.execvp("bash", ["bash", "--norc", "--noprofile", "-i"])
        settings = "PS1=; bind 'set bell-style none'; bind 'set enable-bracketed-paste off'; "
        keep = 'bind -x \'"\\C-o": printf %s "$READLINE_LINE" > part; mv part line\'; touch ready\n'
        os.write(terminal, f"{settings}. {TOOLS}/atomic.bash; {keep}".encode())
        self.wait_for("ready", terminal)
        os.write(terminal, f"{line}\t\x0f".encode())
        self.wait_for("line", terminal)
        os.kill(process, signal.SIGKILL)
        os.waitpid(process, 0)
        os.close(terminal)
        text = self.read("line").decode()
        os.unlink(self.path("line"))
        os.unlink(self.path("ready"))
        return text

    def wait_for(self, name: str, terminal: int) -> None:
        """Reads what the terminal shows until there is such a file."""
        end = time.monotonic() + 60
        while not os.path.exists(self.path(name)):
            self.assertLess(time.monotonic(), end, f"bash makes no file {name}")
            if select.select([terminal], [], [], 0.01)[0]:
                os.read(terminal, 4096)

    def test_lines(self) -> None:
        rows = {
            "atomic verify-": "atomic verify-blame ",
            'atomic "pri': 'atomic "print" ',
            "atomic check a": "atomic check a\\ b.java ",
            'atomic check "a': 'atomic check "a b.java" ',
            "atomic check 'a": "atomic check 'a b.java' ",
            "atomic check a\\ ": "atomic check a\\ b.java ",
            'atomic check "it': 'atomic check "it\'s.java" ',
            "atomic check p\\$": "atomic check p\\$q.java ",
            'atomic run "a b.java" a': 'atomic run "a b.java" a\\ b.schedule ',
            'atomic run "a b.java" "a': 'atomic run "a b.java" "a b.schedule" ',
            "atomic 'verify' x ": "atomic 'verify' x x.book ",
            "atomic_why --a": "atomic_why --all ",
            "atomic_why --all it": "atomic_why --all it\\'s.java ",
            "atomic_why --s": "atomic_why --strict ",
            "atomic_why --strict it": "atomic_why --strict it\\'s.java ",
            'atomic-page "a b.java" ': 'atomic-page "a b.java" a\\ b.schedule ',
            "atomic-page -o out it": "atomic-page -o out it\\'s.java ",
            "atomic-sarif --g": "atomic-sarif --github ",
            "atomic-java --pu": "atomic-java --public ",
            'atomic-java --public "a': 'atomic-java --public "a b.java" ',
            "atomic-sarif --github it": "atomic-sarif --github it\\'s.java ",
        }
        for line, wanted in rows.items():
            with self.subTest(line=line):
                self.assertEqual(wanted, self.completed(line))


if __name__ == "__main__":
    unittest.main()
