"""How the commands end: by their words, by what fails, and by signals."""
from __future__ import annotations

import os
import signal
import subprocess
import time
import unittest
import xml.etree.ElementTree

from .support import ACCEPTED, EVIL, EXAMPLES, REFUSED, InFolder, command, run

COMMANDS = ("atomic-page", "atomic-witness", "atomic-sarif")
# a promise that is broken where a thread comes in between two reads; the values are kept in an object that nobody can
# reach, or printed
READS = b"""class Shared { int v; }
class Box { int first; int second; }
class Reader implements Runnable { final Shared s; Reader(Shared s) { this.s = s; }
    public void run() { this.read(); }
    atomic void read() { final Box box = new Box(); box.first = this.s.v; box.second = this.s.v; %s } }
class Writer implements Runnable { final Shared s; Writer(Shared s) { this.s = s; }
    public void run() { this.s.v = 1; } }
class Main { void main() { final Shared s = new Shared();
    new Thread(new Reader(s)).start(); new Thread(new Writer(s)).start(); } }
"""
# refused, and kept nevertheless: what a thread reads twice nobody changes
TWICE = READS.replace(b"this.s.v = 1", b"System.out.println(this.s.v)") % b""


class Words(InFolder):
    def test_help_and_version(self) -> None:
        for name in COMMANDS:
            with self.subTest(name=name):
                status, text, errors = self.run_tool(name, "--help")
                self.assertEqual((0, "", True), (status, errors, text.startswith(f"usage: {name}")))
                status, text, errors = self.run_tool(name, "--version")
                self.assertRegex(text, rf"^{name} 0\S*\n$")
                self.assertEqual((0, ""), (status, errors))

    def test_wrong_words(self) -> None:
        for name in COMMANDS:
            for text in ("", "--what", "-z a" if name == "atomic-sarif" else "a b c"):
                words = text.split()
                with self.subTest(name=name, words=words):
                    status, text, errors = self.run_tool(name, *words)
                    self.assertEqual((2, "", True), (status, text, errors.startswith(f"usage: {name}")))


class Failures(InFolder):
    """Status 3 and one line, never a traceback, and nothing cut off under a final name."""

    def setUp(self) -> None:
        super().setUp()
        self.write("f.java", REFUSED)

    def expect_line(self, words: list[str], line: str) -> None:
        status, text, errors = run(words, self.folder)
        self.assertEqual((3, "", 1), (status, text, errors.count("\n")), errors)
        self.assertIn(line, errors)

    def shell(self, text: str) -> list[str]:
        return ["sh", "-c", text]

    def test_standard_output_fails(self) -> None:
        for name in COMMANDS:
            for words in ("f.java", "--help", "--version"):
                with self.subTest(name=name, words=words):
                    run_it = " ".join([*command(name), words])
                    self.expect_line(
                        self.shell(f"{run_it} > /dev/full"), f"{name}: cannot write standard output: No space left"
                    )

    def test_standard_output_is_closed(self) -> None:
        for name in COMMANDS:
            with self.subTest(name=name):
                self.expect_line(
                    self.shell(" ".join(command(name)) + " f.java >&-"), f"{name}: standard output is closed"
                )

    def test_nobody_reads(self) -> None:
        for name in COMMANDS:
            with self.subTest(name=name):
                run_it = " ".join(command(name))
                text = f"{{ {run_it} f.java; echo $? > status; }} | true"
                errors = run(self.shell(text), self.folder).errors
                self.assertIn(self.read("status"), (b"3\n", b"1\n", b"0\n"))
                self.assertNotIn("Traceback", errors)

    def test_programs_are_missing_or_others(self) -> None:
        for name in COMMANDS:
            for program, line in (
                ("/nowhere/atomic", "cannot run /nowhere/atomic"),
                (self.script("nine", "exit 9"), "ended with 9"),
            ):
                with self.subTest(name=name, program=program):
                    ended = self.run_tool(name, "f.java", more={"ATOMIC": program, "ATOMIC_WHY": program})
                    self.assertEqual((3, "", 1), (ended.status, ended.text, ended.errors.count("\n")))
                    self.assertIn(line, ended.errors)

    def test_programs_that_write_anything(self) -> None:
        noise = self.script("noise", "head -c 3000 /dev/urandom; exit ${STATUS:-0}")
        for name in COMMANDS:
            for status in "0123":
                with self.subTest(name=name, status=status):
                    ended = self.run_tool(name, "f.java", more={"ATOMIC": noise, "ATOMIC_WHY": noise, "STATUS": status})
                    self.assertNotIn("Traceback", ended.errors)
                    self.assertLessEqual(ended.errors.count("\n"), 1)

    def test_a_file_that_cannot_be_read_is_named_without_its_control_signs(self) -> None:
        for name in COMMANDS:
            with self.subTest(name=name):
                ended = self.run_tool(name, "no\x1b[31m\nfile\udc80")
                self.assertEqual((3, "", 1), (ended.status, ended.text, ended.errors.count("\n")))
                self.assertNotIn("\x1b", ended.errors)

    def test_a_schedule_that_is_none(self) -> None:
        self.write("s", b"0*2 x")
        self.expect_line([*command("atomic-page"), "f.java", "s"], "schedule refused")
        self.expect_line([*command("atomic-page"), "f.java", "nowhere"], "cannot read nowhere")


class Output(InFolder):
    def setUp(self) -> None:
        super().setUp()
        self.write("f.java", REFUSED)

    def test_a_file_is_written_whole(self) -> None:
        for name in COMMANDS:
            with self.subTest(name=name):
                text = self.run_tool(name, "f.java").text
                self.assertEqual("", self.run_tool(name, "f.java", "--output", "out").text)
                self.assertEqual(text.encode(), self.read("out"))

    def test_a_file_stays_as_it_was_where_something_fails(self) -> None:
        self.write("out", b"before")
        for name in COMMANDS:
            with self.subTest(name=name):
                ended = run(
                    ["sh", "-c", 'ulimit -f 0; exec "$@"', "-", *command(name), "f.java", "-o", "out"], self.folder
                )
                self.assertEqual((3, 1), (ended.status, ended.errors.count("\n")), ended.errors)
                self.assertEqual(b"before", self.read("out"))
                self.assertEqual(["f.java", "out"], sorted(os.listdir(self.folder)))

    def test_a_file_keeps_its_rights(self) -> None:
        os.chmod(self.write("out", b"before"), 0o640)
        self.run_tool("atomic-sarif", "f.java", "-o", "out")
        self.assertEqual(0o640, os.stat(self.path("out")).st_mode & 0o777)

    def test_a_device_is_written_as_it_is(self) -> None:
        ended = self.run_tool("atomic-sarif", "f.java", "-o", "/dev/full")
        self.assertEqual(
            (3, "atomic-sarif: cannot write /dev/full: No space left on device\n"), (ended.status, ended.errors)
        )


def listens_to_signals() -> None:
    """What runs in the background may ignore signals, and hands that on."""
    for number in (signal.SIGTERM, signal.SIGHUP, signal.SIGINT):
        signal.signal(number, signal.SIG_DFL)


class Signals(InFolder):
    def ended_by(self, number: int) -> int:
        """The status of a command that a signal stops while it waits for a program, with a folder of its own."""
        self.write("f.java", REFUSED)
        os.mkdir(self.path("temporary"))
        waits = self.script("waits", 'case "$2" in f.java) echo; exit 2 ;; esac; touch started; exec sleep 60')
        environment = {**os.environ, "ATOMIC": waits, "ATOMIC_WHY": waits, "TMPDIR": self.path("temporary")}
        words = [*command("atomic-page"), "f.java"]
        process = subprocess.Popen(
            words, cwd=self.folder, env=environment, stderr=subprocess.PIPE, preexec_fn=listens_to_signals
        )
        with process:
            while not os.path.exists(self.path("started")) and process.poll() is None:
                time.sleep(0.02)
            process.send_signal(number)
            _, errors = process.communicate()
        self.assertEqual(b"", errors)
        return process.returncode

    def test_temporary_folders_go(self) -> None:
        for number in (signal.SIGTERM, signal.SIGHUP, signal.SIGINT):
            with self.subTest(number=number):
                self.setUp()
                self.assertEqual(128 + number, self.ended_by(number))
                self.assertEqual([], os.listdir(self.path("temporary")))


class Pages(InFolder):
    def test_a_page_shows_what_turns_text_around(self) -> None:
        self.write("f.java", "/* \u202e */ // \u2066 \x1b\n".encode() + ACCEPTED)
        status, page, errors = self.run_tool("atomic-page", "f.java")
        self.assertEqual((0, ""), (status, errors))
        self.assertIn("/* \u27e8U+202E\u27e9 */", page)
        self.assertFalse({"\u202e", "\u2066", "\x1b"} & set(page))

    def test_names_may_hold_anything(self) -> None:
        for name in EVIL:
            with self.subTest(name=name):
                status, page, errors = self.run_tool("atomic-page", self.write(name, REFUSED))
                self.assertEqual((0, ""), (status, errors))
                xml.etree.ElementTree.fromstring(page)

    def test_a_link_is_one_to_a_file(self) -> None:
        self.write("javascript:alert(1).java", REFUSED)
        self.write("javascript:alert(1).witness", b"")
        self.assertIn(
            'href="javascript%3Aalert%281%29.witness"', self.run_tool("atomic-page", "javascript:alert(1).java").text
        )


class Witnesses(InFolder):
    def test_a_promise_is_broken_where_others_can_see_it(self) -> None:
        self.write("f.java", READS % b"System.out.println(box.first - box.second);")
        status, text, _ = self.run_tool("atomic-witness", "f.java")
        self.assertEqual(0, status)
        self.assertIn("\n# broken: no schedule that interrupts no atomic call prints this\n", text)
        self.write("schedule", text.encode())
        self.assertIn('class="lanes"', self.run_tool("atomic-page", "f.java", "schedule").text)

    def test_what_differs_in_objects_alone_says_so(self) -> None:
        self.write("f.java", READS % b"")
        status, text, _ = self.run_tool("atomic-witness", "f.java")
        self.assertEqual(0, status)
        self.assertIn("\n# broken: no schedule that interrupts no atomic call leaves this\n", text)

    def test_a_source_without_a_witness_says_so(self) -> None:
        self.write("f.java", TWICE)
        status, text, _ = self.run_tool("atomic-witness", "f.java")
        self.assertEqual(1, status)
        self.assertRegex(text, r"\A# no witness found: [0-9]+ schedules were tried\n\Z")

    def test_a_name_stays_inside_of_its_comment(self) -> None:
        self.write("x\n0*9\r.java", READS % b"System.out.println(box.first - box.second);")
        text = self.run_tool("atomic-witness", "x\n0*9\r.java").text
        self.assertEqual(1, sum(1 for line in text.split("\n") if line and not line.startswith("#")))

    def test_an_example_is_as_it_is_kept(self) -> None:
        with open(os.path.join(EXAMPLES, "tickets_race.witness"), encoding="ascii") as file:
            kept = file.read()
        self.assertEqual((0, kept, ""), run([*command("atomic-witness"), "tickets_race.java"], EXAMPLES))


if __name__ == "__main__":
    unittest.main()
