"""`saxtegun explain`: on the example, whose lines are played by hand, and on cases of conformance/."""
from __future__ import annotations

import json
import re
import unittest

from day import EXAMPLE, OnSessions, cases_in_rows
from tool import CASES, case_named, run
from saxtegun.commands import Refused
from saxtegun.sessions import sessions_in

# The example's session 4, worked out by hand from its level and its inputs.
STALE = """\
session 4, a recording that has gone stale: differs: 17 frames, 16 inputs; 5 of 42 cells (6 wide, 7 high) differ from the recorded level
    column 2, row 3: background crate; recorded: background
    column 2, row 4: background target; recorded: background crate target
    column 2, row 5: background player; recorded: background
    column 3, row 4: background crate; recorded: background player
    column 4, row 5: background; recorded: background crate
    | reached    recorded
    | ####..     ####..
    | #.O#..     #.O#..
    | #*.###     #..###
    | #O*..#     #@P..#
    | #P...#     #..*.#
    | #..###     #..###
    | ####..     ####..
5 sessions: 4 passed, 1 differs, 0 stopped, 0 refused
"""
# For a case the words that its explanation must have.
TOLD = {
    "the-word-random-in-a-rule": ("(OutsideProfile:26)", "    line 26: random [ Player ] -> [ Player ]\n"),
    "a-level-row-with-an-unknown-glyph": ("a letter that draws nothing", "    line 28: x\n"),
    "an-empty-source-is-refused-by-its-sections": ("its source is the empty text, which stands for a game's, and no game's text is named", "(Section:0); 0 frames"),
    "two-rules-that-undo-each-other-stop-at-the-loop-limit": ("stopped: a group of rules or a loop still changed something in its 200th pass",),
    "an-index-beyond-the-levels-is-refused": ("no level is left from its index on",),
    "walk-with-a-recorded-level-of-three-cells-differs": ("the recorded level has 3 cells, and the one that was reached 4",),
    "a-column-text-differs-with-order-rows": ("2 of 6 cells (2 wide, 3 high) differ", "in the other order, not by rows", "    | .p         ..\n    | ..         .p\n"),
    "a-name-with-marks-that-json-escapes": ("session 0, \\u{1}\"\\/\\u{7f}\u00e9\\u{a}: refused",),
}
# For a case the culprit that is named behind the fault of its source.
CULPRITS = {
    "a-level-row-with-an-unknown-glyph": "draws nothing: `x` (BadGlyph:28)",
    "a-property-of-one-member-isn-t-a-glyph": "draws nothing: `t` (BadGlyph:29)",
    "a-synonym-of-a-property-as-a-glyph": "draws nothing: `t` (BadGlyph:29)",
    "white-space-inside-a-level-row": "draws nothing: ` ` (BadGlyph:28)",
    "a-name-that-is-already-there": "is there already: `Crate` (Duplicate:15)",
    "a-repeated-name-on-one-name-line": "is there already: `M` (Duplicate:15)",
    "an-object-that-is-in-no-layer": "is in no collision layer: `Spike` (NoLayer:13)",
    "no-player-among-the-objects": "is joined by `and`: `player` (Missing:0)",
    "no-player-among-objects-and-layers": "is joined by `and`: `player` (Missing:0)",
    "player-as-an-aggregate": "is joined by `and`: `player` (Missing:0)",
}


class Explain(OnSessions):
    def test_the_example_is_reported_with_its_cells_and_drawn(self) -> None:
        answer = run("explain", EXAMPLE, self.lines)
        self.assertEqual((answer.status, answer.out, answer.errors), (0, STALE, ""))

    def test_a_fault_is_reported_with_its_culprit(self) -> None:
        for name, words in CULPRITS.items():
            with self.subTest(name):
                self.assertIn(words, run("explain", *self.case(name), "--order", "rows").out)

    def test_a_case_is_reported_with_its_cause(self) -> None:
        for name, wanted in TOLD.items():
            with self.subTest(name):
                answer = run("explain", *self.case(name), "--order", "rows")
                self.assertEqual((answer.status, answer.errors), (0, ""))
                for words in wanted:
                    self.assertIn(words, answer.out)

    def test_every_case_is_explained(self) -> None:
        sessions, lines = cases_in_rows()
        answer = run("explain", self.write("sessions.json", sessions), self.write("lines", lines), "--order", "rows")
        self.assertEqual((answer.status, answer.errors), (0, ""))
        failed = sum(1 for line in lines.split("\n")[:-1] if json.loads(line).get("close") in ("differs", "stopped", "refused"))
        heads = [line for line in answer.out.split("\n") if line.startswith("session ")]
        more = sum(int(it) for line in heads for it in re.findall(r" and (\d+) more sessions?: refused: ", line))
        self.assertEqual(len(heads) + more, failed)
        self.assertNotIn("its cause is", answer.out)

    def test_one_fault_of_a_game_is_explained_once(self) -> None:
        sessions, lines = (it.read_text(encoding="utf-8") for it in self.case("the-word-random-in-a-rule"))
        [entry], [line] = json.loads(sessions), lines.splitlines()
        other = ["another", [entry[1][0].replace("random", "  random"), *entry[1][1:]]]
        entries = [entry, entry, other, entry]
        shown = "".join(json.dumps({**json.loads(line), "name": it[0], "session": number}) + "\n" for number, it in enumerate(entries))
        answer = run("explain", self.write("s.json", json.dumps(entries)), self.write("lines", shown), "--order", "rows")
        heads = [it.partition(": ")[0] for it in answer.out.splitlines() if it.startswith("session ")]
        self.assertEqual(heads, [f"session 0, {entry[0]} and 2 more sessions", "session 2, another"])
        self.assertIn("4 sessions: 0 passed, 0 differ, 0 stopped, 4 refused", answer.out)

    def test_a_level_is_not_drawn_where_a_cell_has_no_letter(self) -> None:
        source = json.loads(EXAMPLE.read_text(encoding="utf-8"))[4][1][0].replace("* = Crate", "Box = Crate")
        entries = json.loads(EXAMPLE.read_text(encoding="utf-8"))
        entries[4][1][0] = source
        answer = run("explain", self.write("sessions.json", json.dumps(entries)), self.lines)
        self.assertIn("column 2, row 3: background crate; recorded: background", answer.out)
        self.assertNotIn("####..", answer.out)

    def test_lines_of_another_file_are_refused(self) -> None:
        lines = self.lines.read_text(encoding="utf-8")
        for text, what in (
            (lines.replace("half way", "half-way"), "session 2 is named 'half-way through the first', and in the file 'half way"),
            ("".join(lines.splitlines(keepends=True)[:-1]), "the lines end within session 4, which has no close"),
            ("".join(lines.splitlines(keepends=True)[:-18]), "closes 4 sessions, and"),
            ("".join(lines.splitlines(keepends=True)[1:]), "line 1: not frame 0 of session 0"),
            ("\n" + lines, "line 1: no line of the program"),
            (lines.replace("move", "jump"), "line 2: not frame 1 of session 0"),
        ):
            with self.subTest(what):
                self.assert_refused(run("explain", EXAMPLE, self.write("lines", text)), what)

    def test_a_file_that_is_no_sessions_file_is_refused_with_the_place(self) -> None:
        entry = '["a", ["", [0], ""]]'
        for text, what in (
            ("", "line 1, letter 1"),
            ("{}", "line 1, letter 1"),
            (f"[{entry},\n", "line 2, letter 1"),
            (f"[{entry}]\n!", "line 2, letter 1: no JSON list of sessions (something stands after the list)"),
            (f"[{entry},\n7]", "session 1, line 2: it is no list of a name and a list"),
            ('[["a", ["", [0, 5], ""]]]', "session 0, line 1: its input 1 is neither"),
            ('[["a", ["", [0], "", -1]]]', "session 0, line 1: its index is no whole number"),
            ('[["\\ud800", ["", [0], ""]]]', "session 0, line 1: a text of it holds half a letter"),
            ("[" * 100_000, "no JSON list of sessions"),
            ("[NaN]", "NaN is no JSON"),
            (f"[{'1' * 5000}]", ".. is beyond the largest number)"),
            ('[["a", ["", [-0], ""]]]', "session 0, line 1: its input 0 is neither"),
            ('[["a", ["", [], "", -0]]]', "session 0, line 1: its index is no whole number"),
            ('[["a", ["", [0], "", 0, 1e999]]]', "1e999 is beyond the largest number"),
            ('[["a", ["", [0], ""], [{"x": -1e400}]]]', "-1e400 is beyond the largest number"),
        ):
            with self.subTest(what):
                self.assert_refused(run("explain", self.write("sessions.json", text), self.lines), what)
        self.assert_refused(run("explain", self.room / "nothing", self.lines), "nothing can't be read")

    def test_what_the_program_refuses_of_numbers_is_refused(self) -> None:
        """What an entry doesn't need isn't handed on to the program, so its numbers are judged here: as docs/sessions.md has them."""
        names = [it.stem for it in CASES.iterdir() if re.search("number-that-rounds|whole-number|nought|index-of-four|exponent|no-float|beyond-the-largest", it.name)]
        self.assertGreater(len(names), 6)
        for name in names:
            case = case_named(name)
            text, is_refused = case.input.decode(), case.status == 2
            with self.subTest(name):
                try:
                    sessions_in("s.json", text)
                    self.assertFalse(is_refused)
                except Refused:
                    self.assertTrue(is_refused)

    def test_a_long_cause_of_another_engine_is_cut(self) -> None:
        sessions = self.write("s.json", '[["a", ["no game", [], ""]]]')
        close = {"cause": "x" * 100_000, "close": "stopped", "frames": 0, "name": "a", "session": 0}
        one, other = (self.write(name, json.dumps({**close, "cause": cause}) + "\n") for name, cause in (("one", "x" * 100_000), ("other", "y" * 100_000)))
        for verb, files in (("explain", [sessions, one]), ("compare", [one, other, sessions])):
            answer = run(verb, *files)
            self.assertIn("x" * 100, answer.out)
            self.assertLess(len(answer.out), 1000)


if __name__ == "__main__":
    unittest.main()
