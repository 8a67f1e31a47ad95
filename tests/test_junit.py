"""`saxtegun junit`: read back by a reader of XML."""
from __future__ import annotations

import json
import unittest
from xml.etree import ElementTree

from day import EXAMPLE, OnSessions, cases_in_rows
from strangers import LETTERS, NAMES, sessions_and_lines
from tool import run


class JUnit(OnSessions):
    def suite(self, *words: object) -> ElementTree.Element:
        answer = run("junit", *words)
        self.assertEqual((answer.status, answer.errors), (0, ""))
        return ElementTree.fromstring(answer.out)[0]

    def test_the_example_has_a_failure_with_the_words_of_explain(self) -> None:
        suite = self.suite(EXAMPLE, self.lines)
        self.assertEqual(suite.attrib, {"name": "block-pushing.json", "tests": "5", "failures": "1", "errors": "0", "skipped": "0"})
        self.assertEqual([len(it) for it in suite], [0, 0, 0, 0, 1])
        self.assertEqual((suite[4].get("name"), suite[4][0].tag, suite[4][0].get("type")), ("a recording that has gone stale", "failure", "differs"))
        self.assertIn("column 2, row 3: background crate; recorded: background\n", suite[4][0].text or "")

    def test_without_the_sessions_the_lines_are_enough(self) -> None:
        suite = self.suite(self.lines)
        self.assertEqual(suite[4][0].get("message"), "the level that was reached is not the recorded one; 17 frames")

    def test_a_stop_is_a_failure_and_a_refusal_an_error_or_skipped(self) -> None:
        lines = self.write("lines", self.case("two-rules-that-undo-each-other-stop-at-the-loop-limit")[1].read_text())
        self.assertEqual(self.suite(lines)[0][0].get("type"), "stopped")
        refused = self.case("the-word-random-in-a-rule")[1]
        self.assertEqual((self.suite(refused)[0][0].tag, self.suite(refused, "--refused", "skipped")[0][0].tag), ("error", "skipped"))
        self.assertEqual(self.suite(refused, "--refused", "skipped").get("skipped"), "1")

    def test_cases_of_one_name_are_told_apart(self) -> None:
        sessions, lines = cases_in_rows()
        suite = self.suite(self.write("sessions.json", sessions), self.write("lines", lines), "--order", "rows")
        names = [it.get("name") for it in suite]
        self.assertEqual((len(set(names)), len(names)), (len(names), int(suite.get("tests", ""))))

    def test_a_number_behind_a_name_makes_no_name_that_is_there(self) -> None:
        """Nor one of a session that comes later; and letters that are written by their number are those numbers."""
        names = ["a", "a (session 2)", "a", "b", "b", "b (session 4)", "a (session 2) (session 2)", "\0", "\\u{0}"]
        level = json.dumps("background player:0,\n")
        lines = "".join(
            f'{{"at":0,"frame":0,"kind":"start","level":{level},"session":{number}}}\n{{"close":"passed","frames":1,"name":{json.dumps(name)},"session":{number}}}\n'
            for number, name in enumerate(names)
        )
        told = [it.get("name") for it in self.suite(self.write("lines", lines))]
        self.assertEqual(len(set(told)), len(names), told)
        self.assertEqual(told[:5], ["a", "a (session 2)", "a (session 2) (session 2)", "b", "b (session 4)"])

    def test_no_name_breaks_the_file(self) -> None:
        sessions, lines = sessions_and_lines(NAMES, LETTERS)
        suite = self.suite(self.write("sessions.json", sessions), self.write("lines", lines))
        names = [it.get("name", "") for it in suite][::2]
        self.assertEqual(names[:4], list(NAMES[:4]))
        self.assertIn("\\u{0}\\u{1}\x7f\\u{fffe}\\u{ffff}\ufeff", names[4])
        self.assertGreater(len(names[6]), len(LETTERS))


if __name__ == "__main__":
    unittest.main()
