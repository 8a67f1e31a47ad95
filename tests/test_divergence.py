"""`saxtegun compare`: where two runs part, on the example's lines, each changed in one place."""
from __future__ import annotations

import contextlib
import io
import json
import re
import unittest
from pathlib import Path
from typing import Any
from unittest import mock

from day import EXAMPLE
from test_test import RULE, OfAGame
from tool import PROGRAM, Answer, plays, run
from saxtegun import command_line
from saxtegun.budget import NOT_LOOKED_AT, Budget
from saxtegun.descriptions import why_it_ended
from saxtegun.divergence import divergence_of
from saxtegun.lines import Frame, Run

SAME = "5 sessions: 5 the same, 0 diverge\n"


class Compare(OfAGame):
    def compare(self, text: str, *words: object) -> Answer:
        return run("compare", self.lines, self.write("other.lines", text), *words)

    def changed(self, number: int, **changes: Any) -> str:
        """The example's lines with one line changed."""
        lines = self.lines.read_text(encoding="utf-8").splitlines()
        lines[number] = json.dumps({**json.loads(lines[number]), **changes})
        return "\n".join(lines) + "\n"

    def test_lines_that_are_the_same_have_status_0(self) -> None:
        answer = self.compare(self.lines.read_text(encoding="utf-8"))
        self.assertEqual((answer.status, answer.out, answer.errors), (0, SAME, ""))

    def test_a_level_that_is_spelled_otherwise_is_the_same(self) -> None:
        text = json.loads(self.lines.read_text(encoding="utf-8").splitlines()[0])["level"]
        self.assertEqual(self.compare(self.changed(0, level=text.replace("background wall:", "Wall background:"))).out, SAME)

    def test_a_level_whose_cells_stand_in_other_lines_is_another(self) -> None:
        """In each line, and not in the first alone; but the last line feed may be missing, and a carriage return be there."""
        text = json.loads(self.lines.read_text(encoding="utf-8").splitlines()[0])["level"]
        first, second, rest = text.split("\n", 2)
        for other in (f"{first}\n{second}{rest}", f"{first}\n\n{second}\n{rest}", f"{first}\n{second[:-2]}\n{second[-2:]}{rest}"):
            answer = self.compare(self.changed(0, level=other))
            self.assertEqual(answer.status, 1)
            self.assertIn("frame 0, at the start\n    the cells are the same, and the line feeds between them are not\n", answer.out)
        for same in (text.rstrip("\n"), text.replace("\n", "\r\n")):
            self.assertEqual(self.compare(self.changed(0, level=same)).out, SAME)

    def test_the_first_frame_that_differs_is_reported_with_its_input(self) -> None:
        text = json.loads(self.lines.read_text(encoding="utf-8").splitlines()[2])["level"]
        answer = self.compare(self.changed(2, level=text.replace("player", "wall")), EXAMPLE)
        names = ("up", "left", "down", "right", "action")
        self.assertEqual(answer.status, 1)
        self.assertIn(f"session 0, both levels solved: frame 2, after input 1 ({names[self.entries[0][1][1][1]]})\n    column ", answer.out)
        self.assertIn("background player; the other: background wall\n", answer.out)
        self.assertIn("    | one       the other\n", answer.out)
        self.assertTrue(answer.out.endswith("5 sessions: 4 the same, 1 diverges\n"))

    def test_sources_are_asked_for_at_once_and_levels_are_drawn_as_long_as_there_is_time(self) -> None:
        entries = [[f"session {it}", [f"title {it} of compared\n", [], "a:0,", 0]] for it in range(40)]
        sessions, texts = self.write_entries(entries, "titles.json"), []
        for name in "ab":
            lines = [[{"at": 0, "frame": 0, "kind": "start", "level": f"{name}:0,", "session": it}, {"close": "differs", "frames": 1, "name": f"session {it}", "session": it}] for it in range(40)]
            texts.append(self.write(f"{name}.lines", "".join(json.dumps(it, separators=(",", ":")) + "\n" for them in lines for it in them)))
        for seconds, told in ((60.0, 0), (0.0, 40)):
            shown, budget = io.StringIO(), Budget(seconds)
            with mock.patch("saxtegun.descriptions.why_it_ended", side_effect=why_it_ended) as asked, mock.patch("saxtegun.divergence.EXPLAINING", budget), \
                    mock.patch("sys.argv", ["saxtegun", "compare", *map(str, texts), str(sessions)]), contextlib.redirect_stdout(shown):
                self.assertEqual(command_line.main(), 1)
            self.assertLess(asked.call_count, 3)
            self.assertEqual(shown.getvalue().count(f"    both levels: {NOT_LOOKED_AT}\n"), told)
            self.assertEqual(shown.getvalue().count("column 1, row 1: a; the other: b\n"), 40)

    def test_another_kind_and_another_close_are_reported(self) -> None:
        told = self.compare(self.changed(1, kind="tick")).out
        self.assertIn("frame 1, after input 0: one shows move of 1 inputs, the other tick of 1", told)
        self.assertNotIn("line feeds", told)
        last = len(self.lines.read_text(encoding="utf-8").splitlines()) - 1
        self.assertIn("the same 17 frames, and then one is differs, the other passed", self.compare(self.changed(last, close="passed"), EXAMPLE).out)

    def test_a_run_that_ends_before_the_other_is_reported(self) -> None:
        frames = [Frame(0, "start", "a:0,\n"), Frame(1, "move", "a:0,\n")]
        divergence = divergence_of(Run(0, "a", "passed", None, frames), Run(0, "a", "stopped", "loop-limit", frames[:1]))
        assert divergence is not None
        self.assertEqual((divergence.frame, divergence.kind, divergence.other), (1, "end", None))
        self.assertIsNone(divergence_of(Run(0, "a", "passed", None, frames), Run(0, "a", "passed", None, list(frames))))

    def test_where_nothing_was_played_nothing_is_the_same(self) -> None:
        """Two files without a line, as two programs leave that crash, and sessions that both sides refuse."""
        self.assert_refused(run("compare", self.write("a.lines", ""), self.write("b.lines", "")), "there is no session, so nothing was compared")
        close = {"cause": "Section:0", "close": "refused", "frames": 0, "name": "a", "session": 0}
        lines = self.write("refused.lines", json.dumps(close) + "\n")
        sessions = self.write("empty.json", '[["a",["",[],""]]]')
        self.assert_refused(run("compare", lines, lines, sessions), "no session was played: their source is the empty text, which stands for a game's; ")
        # an engine's own refusals can be compared, and that is told
        sessions = self.write("faulty.json", '[["a",["no game",[],""]]]')
        answer = run("compare", lines, lines, sessions)
        self.assertEqual((answer.status, answer.out), (0, "1 session: 1 the same, 0 diverge; 1 was refused by both, and not played\n"))

    def test_lines_of_other_sessions_are_refused(self) -> None:
        lines = self.lines.read_text(encoding="utf-8")
        self.assert_refused(self.compare(lines.replace("half way", "half-way")), "session 2 is named 'half way through the first' in")
        self.assertEqual(self.compare("".join(lines.splitlines(keepends=True)[:-18])).status, 2)
        self.assertEqual(self.compare("x").status, 2)
        for words in ((self.lines,), (EXAMPLE, "--engines", "a"), (EXAMPLE, "--engines", "a", "b", "--sources", "c", "d"), (EXAMPLE, EXAMPLE, "--engines", "a", "b")):
            answer = run("compare", *words)
            self.assertEqual((answer.status, answer.errors.count("\n")), (2, 1))

    def test_a_report_shows_both_runs_from_where_they_part(self) -> None:
        page = self.room / "compare.html"
        text = json.loads(self.lines.read_text(encoding="utf-8").splitlines()[2])["level"]
        answer = self.compare(self.changed(2, level=text.replace("player", "wall")), EXAMPLE, "--report", page, "--date", "today")
        self.assertEqual(answer.status, 1)
        index, session = (json.loads(re.findall(f'id="{name}">(.*?)</script>', page.read_text(encoding="utf-8"))[0]) for name in ("index", "session-0"))
        self.assertEqual((index["sessions"], index["closes"]), ([["session 0: both levels solved", "diverges", 51]], ["diverges"]))
        self.assertEqual((index["result"], index["origin"][0]), ("5 sessions: 4 the same, 1 diverges", "Date: today."))
        self.assertEqual((session["opens"], session["beside"]), (2, "other.lines"))
        (one, frames), (other, others) = session["sides"]
        self.assertEqual((one, other, len(frames), len(others)), ("example.lines", "other.lines", 23, 23))
        # the frames are the same but for the third, by whose cell alone the two differ
        self.assertEqual([number for number in range(23) if frames[number] != others[number]], [2])
        self.assertEqual([[session["labels"][label] for label in it[2][2][1::2]] for it in (frames, others)], [[["background", "player"], ["background"]], [["background", "wall"], ["background"]]])

    def test_a_report_names_a_run_that_ended_before_the_other(self) -> None:
        page = self.room / "compare.html"
        lines = self.lines.read_text(encoding="utf-8").splitlines()
        closed = json.loads(next(it for it in lines if '"close"' in it))
        short = [*lines[:3], json.dumps({**closed, "close": "differs", "frames": 3}), *lines[closed["frames"] + 1 :]]
        answer = run("compare", self.lines, self.write("other.lines", "\n".join([*short, ""])), EXAMPLE, "--report", page)
        session = json.loads(re.findall('id="session-0">(.*?)</script>', page.read_text(encoding="utf-8"))[0])
        self.assertEqual((answer.status, session["opens"], [len(it[1]) for it in session["sides"]]), (1, 3, [24, 3]))
        self.assertIn("frame 3, after input 2 (up): the other has no more frames, and is differs", session["told"])


@plays
class DayOfComparing(OfAGame):
    def test_two_texts_of_a_game_are_compared(self) -> None:
        pulled = self.write("pulled.txt", self.source.replace(RULE, "[ < Player | Crate ] -> [ < Player | < Crate ]"))
        answer = run("compare", "--sources", self.game, pulled, self.recordings)
        self.assertEqual((answer.status, answer.errors), (1, ""))
        # by hand: the second input goes away from a crate, which is pulled
        self.assertIn("session 0, both levels solved: frame 2, after input 1 (left)\n    column 3, row 5: background; the other: background crate\n", answer.out)
        self.assertEqual(run("compare", "--sources", self.game, self.game, self.recordings).out, SAME)

    def test_where_play_is_over_in_one_alone_is_told_though_all_frames_are_the_same(self) -> None:
        lost = self.write("lost.txt", self.source.replace("All Target on Crate", "No Player"))
        last = self.write_entries([self.entries[1]])
        page = self.room / "page.html"
        answer = run("compare", "--sources", self.game, lost, last, "--report", page)
        told = f"session 0, {self.entries[1][0]}: play is over behind its last input in game.txt, and not in lost.txt\n1 session: 0 the same, 1 diverges\n"
        self.assertEqual((answer.status, answer.out), (1, told))
        self.assertIn("1 session: 0 the same, 1 diverges", page.read_text(encoding="utf-8"))
        # so of engines
        whole = self.write_entries([[self.entries[1][0], [self.source, *self.entries[1][1][1:]]]])
        program = self.program_with("s/\"over\"/\"undo\"/")
        self.assertEqual(run("compare", "--engines", PROGRAM, program, whole).status, 1)
        self.assertEqual(run("compare", "--engines", PROGRAM, PROGRAM, whole).out, "1 session: 1 the same, 0 diverge\n")

    def program_with(self, change: str) -> Path:
        """A program whose lines are ours with a change."""
        program = self.write("program", f'#!/bin/sh\n"{PROGRAM}" "$@" | sed \'{change}\'\nexit 1\n')
        program.chmod(0o755)
        return program

    def test_two_texts_over_which_nothing_is_played_are_not_the_same(self) -> None:
        broken = [self.write(name, self.source.replace(RULE, f"[ {name} ] -> [ ]")) for name in ("one", "other")]
        self.assert_refused(run("compare", "--sources", *broken, self.recordings), "no session was played: both refuse each, as they do session 0: line ")
        answer = run("compare", "--engines", PROGRAM, PROGRAM, self.recordings)
        self.assertEqual((answer.status, answer.out), (2, ""))
        self.assertIn("no session was played: their source is the empty text", answer.errors)

    def test_two_programs_are_compared(self) -> None:
        answer = run("compare", EXAMPLE, "--engines", PROGRAM, self.program_with('2s/"move"/"tick"/'))
        self.assertEqual((answer.status, answer.out.count("session ")), (1, 1))
        self.assertIn("frame 1, after input 0 (", answer.out)


if __name__ == "__main__":
    unittest.main()
