"""The command `atomic-sarif`."""
from __future__ import annotations

import json
import os
import unittest
from typing import Any
from urllib.parse import unquote

from .sarif_rules import faults
from .support import ACCEPTED, EVIL, EXAMPLES, REFUSED, InFolder, run

LINES = b"""f.java:0:0: error: A.b is declared atomic, found cmpd [two-steps]
f.java:0:7: note: atomic step: writes this.low, which nothing guards [first-step]
f.java:99999999:5: note: a second one: x [second-step]
"""


def results(text: str) -> Any:
    return json.loads(text)["runs"][0]["results"]


class Reports(InFolder):
    def test_a_refused_method_is_a_result_that_meets_the_schema(self) -> None:
        self.write("f.java", REFUSED)
        status, text, errors = self.run_tool("atomic-sarif", "f.java")
        self.assertEqual((1, "", []), (status, errors, faults(json.loads(text))))
        result = results(text)[0]
        self.assertEqual("two-steps", result["ruleId"])
        self.assertEqual(
            {"startLine": 1, "startColumn": 42, "endColumn": 46}, result["locations"][0]["physicalLocation"]["region"]
        )

    def test_every_example_meets_the_schema(self) -> None:
        names = sorted(name for name in os.listdir(EXAMPLES) if name.endswith(".java"))
        text = self.run_tool("atomic-sarif", *(os.path.join(EXAMPLES, name) for name in names)).text
        told = json.loads(text)
        self.assertEqual([], faults(told))
        self.assertGreater(len(told["runs"][0]["results"]), 5)

    def test_an_accepted_source_has_no_result(self) -> None:
        self.write("f.java", ACCEPTED)
        status, text, _ = self.run_tool("atomic-sarif", "f.java")
        self.assertEqual((0, [], []), (status, results(text), faults(json.loads(text))))

    def test_a_source_that_is_no_program_is_a_result(self) -> None:
        self.write("f.java", b"class")
        self.assertEqual(
            ["not-well-formed"], [result["ruleId"] for result in results(self.run_tool("atomic-sarif", "f.java").text)]
        )

    def test_a_code_names_the_rule(self) -> None:
        rows = {"two-steps": "two-steps", "lock-error": "required-unnamed", "overriding-method": "overriding-method"}
        for code, rule in rows.items():
            given = f"f.java:1:2: error: x [{code}]\nf.java:1:2: note: y [required-unnamed]\n".encode()
            result = results(self.run_tool("atomic-sarif", "-", given=given).text)[0]
            self.assertEqual((rule, "x: y"), (result["ruleId"], result["message"]["text"]))

    def test_words_name_the_rule_where_there_is_no_code(self) -> None:
        rows = {
            "this.a is guarded by a lock that has no name here, since x isn't final; held: nothing": "guard-unnamed",
            "this.a is guarded for writing by this, which isn't held here; held: nothing": "guard-not-held",
            "calls A.f, which requires this: that has no name here, since x isn't final": "required-unnamed",
            "calls A.f, which requires this: here that is this, which isn't held here": "required-not-held",
            "calls a method that is an error itself": "calls-an-error",
            "calls A.f, which is an error itself": "calls-an-error",
            "atomic step: prints\nf.java:1:2: note: this loop makes it each time round, and between": "step-in-a-loop",
            "compound step: calls A.f\nf.java:1:2: note: inside it another thread may come in": "compound-call",
            "compound step: calls A.f\nf.java:1:2: note: a second one: prints": "two-steps",
            "B.f overrides it, and is cmpd": "overriding-method",
            "what else": "not-well-formed",
        }
        for told, rule in rows.items():
            given = f"f.java:1:2: error: A.f is declared atomic, found cmpd\nf.java:1:2: note: {told}\n".encode()
            result = results(self.run_tool("atomic-sarif", "-", given=given).text)[0]
            self.assertEqual(rule, result["ruleId"], told)

    def test_a_warning_is_a_result_that_refuses_nothing(self) -> None:
        given = b"f.java:1:2: warning: A.low is written, and nothing guards it [unguarded-field]\n"
        status, text, _ = self.run_tool("atomic-sarif", "-", given=given)
        result = results(text)[0]
        self.assertEqual((0, "unguarded-field", "warning"), (status, result["ruleId"], result["level"]))
        self.assertEqual([], faults(json.loads(text)))

    def test_a_fingerprint_stays_while_lines_move(self) -> None:
        marks = []
        for before in (b"", b"\n\n// moved\n"):
            self.write("f.java", before + REFUSED)
            marks.append(results(self.run_tool("atomic-sarif", "f.java").text)[0]["partialFingerprints"])
        self.assertEqual(marks[0], marks[1])

    def test_equal_results_have_fingerprints_of_their_own(self) -> None:
        self.write("f.java", REFUSED)
        found = results(self.run_tool("atomic-sarif", "f.java", "f.java").text)
        self.assertEqual(2, len({json.dumps(result["partialFingerprints"]) for result in found}))

    def test_lines_of_standard_input_without_a_place_have_no_region(self) -> None:
        text = self.run_tool("atomic-sarif", "-", given=LINES).text
        self.assertEqual([], faults(json.loads(text)))
        self.assertNotIn("region", results(text)[0]["locations"][0]["physicalLocation"])

    def test_a_schema_fault_is_noticed(self) -> None:
        self.write("f.java", REFUSED)
        told = json.loads(self.run_tool("atomic-sarif", "f.java").text)
        told["runs"][0]["results"][0]["ruleIndex"] = 0
        self.assertEqual(["report.runs[0].results[0] has another rule's index"], faults(told))
        told["runs"][0]["results"][0]["locations"][0]["physicalLocation"]["region"]["startLine"] = 0
        self.assertEqual(1, len(faults(told)))
        del told["version"]
        self.assertEqual(2, len(faults(told)))


class Names(InFolder):
    def test_names_from_standard_input_may_hold_anything(self) -> None:
        for name in EVIL:
            self.write(name, REFUSED)
        given = b"".join(os.fsencode(name) + b"\0" for name in EVIL)
        status, text, errors = self.run_tool("atomic-sarif", "-z", given=given)
        self.assertEqual((1, "", []), (status, errors, faults(json.loads(text))))
        named = [
            unquote(result["locations"][0]["physicalLocation"]["artifactLocation"]["uri"]) for result in results(text)
        ]
        self.assertEqual(EVIL, named)
        self.assertEqual(
            [46] * len(EVIL),
            [result["locations"][0]["physicalLocation"]["region"]["endColumn"] for result in results(text)],
        )

    def test_names_from_git(self) -> None:
        for name in EVIL:
            self.write(name, REFUSED)
        self.assertEqual(0, run(["git", "init", "-q", "."], self.folder).status)
        self.assertEqual(0, run(["git", "add", "."], self.folder).status)
        listed = run(["git", "ls-files", "-z", "*.java"], self.folder).text.encode("utf-8", "surrogateescape")
        text = self.run_tool("atomic-sarif", "--github", "-z", given=listed).text
        self.assertEqual(len(EVIL), text.count("::error file="))
        self.assertEqual(2 * len(EVIL), text.count("\n"))
        self.assertFalse(os.path.exists(self.path("pwned")))

    def test_no_names_are_no_results(self) -> None:
        self.assertEqual((0, ""), self.run_tool("atomic-sarif", "--github", "-z")[:2])

    def test_options_may_stand_between_names(self) -> None:
        for name in ("a.java", "b.java", "-c.java"):
            self.write(name, REFUSED)
        text = self.run_tool("atomic-sarif", "a.java", "--github", "b.java", "--", "-c.java").text
        self.assertEqual(3, text.count("::error file="))

    def test_words_that_do_not_fit_together(self) -> None:
        for words in ("", "-z f.java", "- f.java", "--what"):
            with self.subTest(words=words):
                status, text, errors = self.run_tool("atomic-sarif", *words.split())
                self.assertEqual((2, "", True), (status, text, errors.startswith("usage: atomic-sarif")))


class ForGitHub(InFolder):
    def test_the_first_step_keeps_its_help(self) -> None:
        self.write("f.java", REFUSED)
        first, second = self.run_tool("atomic-sarif", "--github", "f.java").text.splitlines()
        self.assertIn("atomic step: writes this.v, which nothing guards; no lock helps this step", first)
        self.assertIn(
            "a second one: writes this.v, which nothing guards; between the two another thread may come in; no lock",
            second,
        )
        self.assertTrue(first.startswith("::error file=f.java,line=1,col=42,endColumn=46,title=two-steps::"))

    def test_columns_count_characters(self) -> None:
        self.write("f.java", "/* \u00e4\u20ac\U0001f600 */ ".encode() + REFUSED)
        self.assertIn("col=52,endColumn=56", self.run_tool("atomic-sarif", "--github", "f.java").text)


if __name__ == "__main__":
    unittest.main()
