"""`saxtegun add`: recordings as a console prints them, which are played and then added, or refused whole."""
from __future__ import annotations

import json
import subprocess
import sys
import unittest
from pathlib import Path
from typing import List, Tuple, Union

from test_test import OfAGame
from day import EXAMPLE
from tool import TOP, environment, plays, run


@plays
class DayOfAdding(OfAGame):
    def setUp(self) -> None:
        super().setUp()
        self.whole = json.loads(EXAMPLE.read_text(encoding="utf-8"))
        self.suite = self.write("suite.json", '[ ["odd\\u0041" ,["", [ ],"",null, 1] ] ]\n')

    def console(self, *numbers: int, behind: str = ",") -> str:
        return "\n".join(json.dumps(self.whole[it], separators=(" ,", ":")) + behind for it in numbers)

    def test_one_and_several_are_added_behind_what_is_there(self) -> None:
        for behind in (",", "", "\r\n"):
            suite = self.write("suite.json", '[ ["odd\\u0041" ,["", [ ],"",null, 1] ] ]\n')
            answer = run("add", suite, self.write("console.txt", self.console(0, 1, behind=behind)))
            self.assertEqual((answer.status, answer.out, answer.errors.splitlines()[0]), (0, "", f"add: 2 recordings added to {suite}, which has 3: both levels solved, the second level alone"))
            self.assertIn("add: 2 recordings keep their own text, and no edit of a game changes that; with --game GAME.txt they follow it\n", answer.errors)
            text = suite.read_text(encoding="utf-8")
            self.assertEqual(json.loads(text)[1:], self.whole[:2])
            self.assertTrue(text.startswith('[ ["odd\\u0041" ,["", [ ],"",null, 1] ],\n["both'))

    def test_a_file_that_is_not_there_is_made(self) -> None:
        new = self.room / "new.json"
        self.assertEqual(run("add", new, stdin=self.console(0).encode()).status, 0)
        self.assertEqual(json.loads(new.read_text(encoding="utf-8")), self.whole[:1])
        self.assertEqual(run("test", new).status, 0)

    def test_the_text_of_the_game_is_left_out(self) -> None:
        new = self.room / "new.json"
        self.assertEqual(run("add", new, "--game", self.game, "-", stdin=self.console(0, 2).encode()).status, 0)
        self.assertEqual([entry[1][0] for entry in json.loads(new.read_text(encoding="utf-8"))], ["", ""])
        self.assertEqual(run("test", self.game, new).status, 0)

    def test_what_did_not_pass_is_not_added_and_nothing_is(self) -> None:
        before = self.suite.read_bytes()
        answer = run("add", self.suite, stdin=self.console(0, 4).encode())
        self.assertEqual((answer.status, self.suite.read_bytes()), (1, before))
        self.assertIn("a recording that has gone stale: differs, not added: 17 frames", answer.errors)
        self.assertEqual(run("add", self.suite, "--anyway", stdin=self.console(0, 4).encode()).status, 0)
        self.assertEqual(len(json.loads(self.suite.read_text(encoding="utf-8"))), 3)

    def test_what_the_program_would_not_read_spoils_no_file(self) -> None:
        """Half a letter in what is ignored makes a whole file no JSON."""
        before = self.suite.read_bytes()
        name, body = self.whole[0]
        for entry in ([name, [*body[:4], "\ud800"]], [name, body, "by \udc00"]):
            answer = run("add", self.suite, stdin=json.dumps(entry).encode())
            self.assertEqual((answer.status, self.suite.read_bytes()), (2, before))
            self.assertIn("skipped a recording with a fault: a text of it holds half a letter", answer.errors)
            self.assertEqual(run("testdata", self.write("console.txt", json.dumps(entry))).status, 2)
            self.assertEqual(run("test", self.game, self.write_entries([entry], "half.json")).status, 2)

    def test_where_nothing_is_found_nothing_is_changed(self) -> None:
        before = self.suite.read_bytes()
        for text, what in (("hello", "standard input: it has no recording: "), ("", "standard input: it is empty: ")):
            answer = run("add", self.suite, stdin=text.encode())
            self.assert_refused(answer, what)
            self.assertEqual(self.suite.read_bytes(), before)
        self.assertEqual(sorted(it.name for it in self.room.iterdir()), ["example.lines", "game.txt", "recordings.json", "suite.json"])

    def test_the_same_recording_that_demands_more_is_added(self) -> None:
        """One that must be solved isn't there where the same is there that needn't be."""
        entry, new = self.whole[0], self.room / "new.json"
        for text in (json.dumps(entry), json.dumps([*entry, "solved"]), json.dumps([*entry, "solved"])):
            self.assertEqual(run("add", new, stdin=text.encode()).status, 0)
        self.assertEqual(json.loads(new.read_text(encoding="utf-8")), [entry, [f"{entry[0]} (2)", entry[1], "solved"]])

    def test_a_name_that_no_file_can_hold_is_refused_before_anything_is_played(self) -> None:
        before = self.suite.read_bytes()
        calls: List[Tuple[str, List[Union[str, bytes, Path]]]] = [("add", [self.suite, "--name", b"\xff"]), ("play", [self.game, "--save", b"\xff", self.suite])]
        for verb, words in calls:
            ran = subprocess.run([sys.executable, TOP / "saxtegun", verb, *words], input=self.console(0).encode(), stdout=subprocess.PIPE, stderr=subprocess.PIPE, env=environment())
            self.assertEqual((ran.returncode, ran.stdout, ran.stderr.decode()), (2, b"", f"saxtegun {verb}: the name '\\udcff' is not UTF-8\n"))
        self.assertEqual(self.suite.read_bytes(), before)

    def test_a_place_that_can_not_be_written_is_reported(self) -> None:
        self.assert_refused(run("add", self.room / "no/where.json", stdin=self.console(0).encode()), "can't be written")
        self.assert_refused(run("add", "-", stdin=b""), "name a sessions file")


if __name__ == "__main__":
    unittest.main()
