"""Games with a clock: refused by name, and played by the ticks that were recorded where that is asked for, which each answer says."""
from __future__ import annotations

import json
import unittest

from day import OnSessions
from tool import plays, run
from saxtegun.ticks import without_clock

TOLD = "played without realtime_interval: ticks as recorded"
REMEDY = "here it is `realtime_interval`; with --ticks-as-recorded it is played without that line, by the ticks that were recorded (OutsideProfile:2)"
# Each tick moves the crate to the right, as far as there is room.
GAME = """title Belt
realtime_interval 0.5
OBJECTS
Background .
black

Player p
white

Crate c
red

LEGEND

COLLISIONLAYERS
Background
Player, Crate

RULES
right [ stationary Crate | no Player no Crate ] -> [ | Crate ]

LEVELS
pc...
"""
# Of the level by hand: a tick's rule takes the crate one cell on in each pass, so to the end of the row. A line feed follows every five cells.
END = "background player:0,background:1,1,1,background crate:2,\n"


class Clocks(unittest.TestCase):
    def test_the_line_stays_as_an_empty_one(self) -> None:
        for line, left in (("realtime_interval 0.5", ""), ("REALTIME_INTERVAL 1 (a", ""), ("  (c) realtime_interval", "  (c) "), ("realtime_intervals 1", None), ("author realtime_interval", None)):
            source = f"title a\n{line}\nnoundo\nOBJECTS\nrealtime_interval 3\n"
            self.assertEqual(without_clock(source), source if left is None else source.replace(line, left, 1), line)


@plays
class DayOfTicks(OnSessions):
    def setUp(self) -> None:
        super().setUp()
        self.game = self.write("game.txt", GAME)
        self.suite = self.write("r.json", json.dumps([["a tick", ["", ["tick"], END, 0]]]))

    def test_without_the_word_the_fault_names_it(self) -> None:
        for words in (("test", self.game, self.suite), ("explain", self.suite, "--game", self.game)):
            self.assertIn(REMEDY, run(*words).out)
        self.assertIn(REMEDY, run("play", self.game).errors)

    def test_the_ticks_are_played_and_each_answer_says_so(self) -> None:
        answer = run("test", self.game, self.suite, "--ticks-as-recorded", "--markdown", self.room / "m.md", "--report", self.room / "p.html", "--junit", self.room / "j.xml")
        self.assertEqual((answer.status, answer.out.splitlines()[0], answer.errors), (0, "passed, not solved: a tick", f"saxtegun: {TOLD}\n"))
        self.assertTrue(answer.out.endswith(f"; {TOLD}\n"))
        self.assertIn("played without realtime", (self.room / "m.md").read_text(encoding="utf-8").replace("&#95;", "_"))
        self.assertIn("Played without realtime_interval: ticks as recorded.", (self.room / "p.html").read_text(encoding="utf-8"))
        self.assertEqual(run("explain", self.suite, "--game", self.game, "--ticks-as-recorded").out, f"1 session: 1 passed, 0 differ, 0 stopped, 0 refused; {TOLD}\n")
        self.assertIn('<property name="played without realtime_interval" value="ticks as recorded" />', (self.room / "j.xml").read_text(encoding="utf-8"))
        lines = run("lines", self.suite, "--game", self.game, "--ticks-as-recorded")
        self.assertEqual((lines.status, json.loads(lines.out.splitlines()[-1])["close"], lines.errors), (0, "passed", f"saxtegun: {TOLD}\n"))
        for words in (("accept", self.suite, "--game", self.game), ("coverage", self.game, self.suite), ("report", self.suite, "--game", self.game)):
            self.assertIn(f"saxtegun: {TOLD}\n", run(*words, "--ticks-as-recorded").errors)

    def test_what_is_played_and_added_keeps_the_text_as_it_is(self) -> None:
        suite = self.room / "new.json"
        self.assertEqual(run("play", self.game, "--save", "mine", suite, "--ticks-as-recorded", stdin=b"t").errors.splitlines()[0], f"saxtegun: {TOLD}")
        entry = json.loads(suite.read_text(encoding="utf-8"))[0]
        self.assertEqual(entry[1], ["", ["tick"], END, 0])
        own = self.write("own.json", json.dumps([["mine", [GAME, *entry[1][1:]]]]))
        added = self.room / "added.json"
        self.assertEqual(run("add", added, own).status, 1)
        self.assertEqual(run("add", added, own, "--ticks-as-recorded").status, 0)
        self.assertEqual(json.loads(added.read_text(encoding="utf-8"))[0][1][0], GAME)

    def test_a_fault_behind_the_line_keeps_its_line(self) -> None:
        self.game.write_text(GAME.replace("| Crate ]", "| Crate"), encoding="utf-8")
        answer = run("test", self.game, self.suite, "--ticks-as-recorded")
        self.assertIn("line 20 is no rule: the row `[ | crate` has no `]` (BadRule:20)", answer.out)
        self.assertIn(f"    {self.game}:20: right [", answer.out)

    def test_a_game_without_a_clock_is_played_as_ever(self) -> None:
        self.game.write_text(GAME.replace("realtime_interval 0.5", ""), encoding="utf-8")
        answer = run("test", self.game, self.suite, "--ticks-as-recorded")
        self.assertEqual((answer.status, TOLD in answer.out + answer.errors), (0, False))


if __name__ == "__main__":
    unittest.main()
