"""`saxtegun coverage`: on the example with rules that nothing can need, and with what all need."""
from __future__ import annotations

import json
import time
import tracemalloc
import unittest
import unittest.mock
from argparse import Namespace
from typing import Any, Iterator, Sequence

from test_processes import SLOW, Programs
from test_test import RULE, OfAGame
from tool import plays, run
from saxtegun.commands import Refused
from saxtegun.descriptions import description_of, expect
from saxtegun.lines import Frame, Run
from saxtegun.omissions import Omissions
from saxtegun.playing import Engine
from saxtegun.sessions import Entry, sessions_in
from saxtegun.verbs import coverage

SOURCE = "RULES\n[ a ] -> [ b ]\n+ [ b ] -> [ c ]\nstartloop\nlate [ c ] -> (aside) [ d ]\nendloop\nWINCONDITIONS\n\nall a on b\nLEVELS\na\n"


class LeavingOut(unittest.TestCase):
    """The source without a line is read as the source is, but for that line, and for the `+` of the next of its group where it began that."""

    def assert_left_out(self, source: str, *heirs: int) -> None:
        """Of each line the one that begins the group behind it, or 0."""
        omissions = Omissions(source)
        parts, texts = omissions.parts(), [*description_of(source).lines.with_headings()]
        self.assertEqual(len(parts), len(heirs))
        expect(map(omissions.without, parts))
        for part, heir in zip(parts, heirs):
            wanted = [(number, text.lstrip("+ ") if number == heir else text) for number, text in texts if number != part.number]
            self.assertEqual([*description_of(omissions.without(part)).lines.with_headings()], wanted)

    def test_each_rule_and_win_line_is_left_out_in_turn(self) -> None:
        self.assertEqual([it.text for it in Omissions(SOURCE).parts()], ["[ a ] -> [ b ]", "+ [ b ] -> [ c ]", "late [ c ] ->  [ d ]", "all a on b"])
        self.assert_left_out(SOURCE, 3, 0, 0, 0)

    def test_a_comment_that_holds_the_same_is_no_rule(self) -> None:
        self.assert_left_out("RULES\n([ a ] -> [ b ]) [ a ] -> [ b ]\n(c + d) + [ b ] -> [ c ]\n(late) + (e) [ c ] -> [ d ]\n", 3, 0, 0)

    def test_comments_take_nothing_with_them(self) -> None:
        for rule in (
            "[ a ] (c) -> [ b ]", "([ a ]  -> [ b ]) [ a ] (c) -> [ b ]", "\t[ a ] -> (of (two)\nlines) [ b ]", "(of\ntwo lines) [ a ] -> (and\nmore)", "[ a ] -> message (b) c",
            "[ a ] (b) -> message (b", "[ a ] -> [ b ] ) c", "[ a ] -(b)> mess(c)age (d",
        ):  # fmt: skip
            with self.subTest(rule):
                source = f"title a (b\n\n(c)\nRULES\n{rule}\nWINCONDITIONS (d\n)\n===\nLEVELS\n\n(a\n\n)\nmes(b)sage (c"
                self.assert_left_out(source, *(0 for it in description_of(source).rules))


class Nothing(unittest.TestCase):
    """Where no line was left out nothing is said of what sessions notice."""

    def play(self, entries: Sequence[Entry], of: Any, engine: Engine) -> Iterator[Run]:
        for number, it in enumerate(entries):
            is_whole = it.source in (self.source, f"{self.source}\n")
            yield Run(number, it.name, "passed", None, [Frame(0, "start", "a:0,")]) if is_whole else Run(number, it.name, "refused", "BadRule:2", [])

    def assert_refused(self, source: str, why: str) -> None:
        self.source = source
        sessions = sessions_in("s.json", json.dumps([["a", [source, [], "a:0,"]]]))
        with unittest.mock.patch.object(coverage, "runs_played", self.play):
            self.assertRaisesRegex(Refused, f"^no line was left out: {why}$", coverage.Coverage(sessions, Namespace(order="columns", workers=None, program=None)).run)

    def test_sources_without_a_line_are_refused(self) -> None:
        self.assert_refused("RULES\nWINCONDITIONS\nLEVELS\na\n", "no source that is played has a rule or a win line")

    def test_lines_of_which_none_can_be_left_out_alone_are_refused(self) -> None:
        self.assert_refused(SOURCE, "without any of them the rest is refused")


class Memory(unittest.TestCase):
    """What is held for a game of many rules is about its size, and not its size for each rule."""

    RULES = 2000
    played: int
    most: int

    def play(self, entries: Sequence[Entry], of: Any, engine: Engine) -> Iterator[Run]:
        self.played += len(entries) // 2
        self.most = max(self.most, sum(len(it.source) for it in entries))
        for number, it in enumerate(entries):
            yield Run(number, it.name, "passed", None, [Frame(0, "start", "a:0,")])

    def test_no_more_is_held_than_what_is_played_at_once(self) -> None:
        source = "RULES\n" + "[ Player ] -> [ Player ] (so that it is long)\n" * self.RULES
        sessions = sessions_in("s.json", json.dumps([["a", [source, [], "a:0,"]]]))
        self.played, self.most = 0, 0
        with unittest.mock.patch.object(coverage, "runs_played", self.play):
            tracemalloc.start()
            try:
                it = coverage.Coverage(sessions, Namespace(order="columns", workers=None, program=None))
                it.run()
                peak = tracemalloc.get_traced_memory()[1]
            finally:
                tracemalloc.stop()
        # each rule once, and the session itself; no session notices that a rule is gone
        self.assertEqual((self.played, it.tried, len(it.unnoticed)), (1 + self.RULES, self.RULES, self.RULES))
        # two of each source are played at once, of one text; a source has 90 KB, and all sources without a rule would have 180 MB
        self.assertLess(self.most, 2 * (coverage.MOST_LETTERS + len(source) + 1))
        self.assertLess(peak, 50_000_000)


class Time(Programs):
    def test_no_more_lines_are_left_out_than_there_is_time_for(self) -> None:
        """All would take a minute. What is told is of those that were."""
        sessions = self.write("s.json", json.dumps([["a", ["RULES\n" + "[ a ] -> [ b ]\n" * 60, [], "a:0,"]]]))
        for within, out, why in (
            ("6", r"(.*, line \d+: no session notices it: \[ a \] -> \[ b \]\n)+\d+ lines? left out in turn: \d+ that no session notices; 1 of 1 session does not pass with all lines there\n", r"there is no whole answer: [45]\d lines"),
            ("0.01", "", "no line was left out: 60 lines"),
        ):
            answer = run("coverage", sessions, "--within", within, "--program", self.program(SLOW))
            self.assertEqual(answer.status, 2)
            self.assertRegex(answer.out, f"^{out}$")
            self.assertRegex(answer.errors, f"^saxtegun coverage: {why} were not tried in {within} s; --within gives more time\n$")


# One of the recordings of the day has gone stale.
FAILING = "; 1 of 5 sessions does not pass with all lines there"


@plays
class DayOfCoverage(OfAGame):
    def number(self, text: str) -> int:
        return 1 + self.game.read_text(encoding="utf-8").partition(text)[0].count("\n")

    def test_what_all_need_is_not_reported(self) -> None:
        answer = run("coverage", self.game, self.recordings)
        self.assertEqual((answer.status, answer.out, answer.errors), (0, f"2 lines left out in turn: 0 that no session notices{FAILING}\n", ""))

    def test_rules_that_no_session_needs_are_reported(self) -> None:
        # the first does what the rule of the example does too, and the second never matches
        never = "[ Wall Player ] -> [ Wall ]"
        self.with_rule(f"{RULE}\n{RULE}\n{never}")
        answer = run("coverage", self.game, self.recordings)
        self.assertEqual(answer.status, 1)
        told = [line.split(": no session notices it: ") for line in answer.out.splitlines()[:-1]]
        first = self.number(RULE)
        self.assertEqual(told, [[f"{self.game}:{first + it}", text] for it, text in enumerate((RULE, RULE, never))])
        self.assertEqual(answer.out.splitlines()[-1], f"4 lines left out in turn: 3 that no session notices{FAILING}")

    def test_a_win_line_is_needed_where_a_session_solves_a_level(self) -> None:
        inside = self.write_entries([self.entries[2]])
        answer = run("coverage", self.game, inside)
        self.assertEqual((answer.status, answer.out.splitlines()[-1]), (1, "2 lines left out in turn: 1 that no session notices"))
        self.assertIn(": no session notices it: All Target on Crate", answer.out)
        last = self.write_entries([self.entries[1]])
        self.assertEqual(run("coverage", self.game, last).status, 0)

    def test_a_rule_that_wins_is_needed_where_a_session_is_won_by_it(self) -> None:
        names = "Background .\nblack\nGoal g\nblue\nPlayer p\nwhite\n"
        text = f"title Won\nOBJECTS\n{names}LEGEND\nCOLLISIONLAYERS\nBackground\nGoal\nPlayer\nRULES\nlate [ Player Goal ] -> WIN\nWINCONDITIONS\nLEVELS\np.g\n"
        for inputs, level, status in (([3, 3], "background:0,0,background goal player:1,\n", 0), ([3], "background:0,background player:1,background goal:2,\n", 1)):
            answer = run("coverage", self.write("won.txt", text), self.write_entries([["walk", ["", inputs, level, 0]]]))
            self.assertEqual((answer.status, answer.out.splitlines()[-1]), (status, f"1 line left out in turn: {status} that no session notices"))

    def test_a_game_that_is_refused_is_not_covered_by_sessions_of_another_text(self) -> None:
        self.with_rule(RULE.replace("Crate", "Crat"))
        mixed = self.write_entries([self.entries[1], ["own", [self.source, *self.entries[1][1][1:]]]], "mixed.json")
        answer = run("coverage", self.game, mixed)
        self.assertEqual((answer.status, answer.out), (2, ""))
        number = self.number(RULE.replace("Crate", "Crat"))
        self.assertIn(f"no session is played over {self.game}, so none of its lines was left out: session 0, {self.entries[1][0]}: line {number} has a name that is not there", answer.errors)

    def test_a_game_that_no_session_follows_is_not_covered(self) -> None:
        own = self.write_entries([["own", [self.source, *self.entries[1][1][1:]]]], "own.json")
        self.assertEqual(run("coverage", own).status, 0)
        for text in (self.source + "message x\n", "no game"):
            self.write("game.txt", text)
            answer = run("coverage", self.game, own)
            self.assertEqual((answer.status, answer.out), (2, ""))
            self.assertIn(f"no session is played over {self.game}, so none of its lines was left out: each has another text\n", answer.errors)

    def test_a_line_with_a_comment_inside_is_left_out(self) -> None:
        """No session needs it, and each needs the one whose comment holds the text of another."""
        rule = "[ > Player | (so) Wall ] -> [ Player | Wall ]"
        self.with_rule(f"({rule}) {RULE.replace('->', '(so) ->')}\n{rule}")
        answer = run("coverage", self.game, self.write_entries([self.entries[1]]))
        self.assertEqual(answer.status, 1)
        self.assertEqual(answer.out, f"{self.game}:{self.number(rule) + 1}: no session notices it: [ > Player |  Wall ] -> [ Player | Wall ]\n3 lines left out in turn: 1 that no session notices\n")

    def test_how_many_sessions_fail_already_is_said(self) -> None:
        failing = [["other", ["", [0], "background:0,", 0]], ["none", ["no game", [], "", 0]]]
        told = []
        for more in (failing[:1], failing):
            told.append(run("coverage", self.game, self.write_entries([self.entries[1], *more])).out.splitlines()[-1])
        counts = "2 lines left out in turn: 0 that no session notices; "
        self.assertEqual(told, [f"{counts}1 of 2 sessions does not pass with all lines there", f"{counts}2 of 3 sessions do not pass with all lines there"])

    def test_where_no_session_is_played_there_is_no_answer(self) -> None:
        sessions = self.write("refused.json", json.dumps([["a", ["", [], ""]]]))
        self.assert_refused(run("coverage", sessions), "has no session that can be played, so no line was left out: session 0, a: its source is the empty text")
        self.assert_refused(run("coverage", self.game, self.write("none.json", "[]")), "so no line was left out: it is empty")
        self.assertEqual(run("coverage", self.room / "nothing").status, 2)


if __name__ == "__main__":
    unittest.main()
