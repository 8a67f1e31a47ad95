"""`saxtegun shrink`: of a long session on which two small engines part the smallest is left, which was worked out by hand."""
from __future__ import annotations

import json
import os
import re
import signal
import subprocess
import sys
import time
import unittest
from pathlib import Path
from typing import Any, Iterator, List, Sequence, Set, Tuple, Union
from unittest import mock

from day import OnSessions
import tool  # puts the package on the path
from test_compare import state_of
from test_processes import hear_signals
from tool import PROGRAM, TOP, Answer, environment, plays, run
from saxtegun.cases import lines_of, read_case
from saxtegun.commands import Refused
from saxtegun.engines import answers
from saxtegun.lines import Run
from saxtegun.playing import Engine
from saxtegun.reductions import STAGES, of_columns, of_inputs, of_levels, of_lines, of_loops, of_objects
from saxtegun.sessions import Entry, Sessions
from saxtegun.shrinking import Programs, Shrinking
from saxtegun.verbs.shrink import case_of_entry, first_that_parts, write_case

SOURCE = """title A yard (with a comment
of two lines)
author nobody

========
OBJECTS
========

Background .
green
00000
01010
00000
01010
00000

Wall #
brown

Gem g
pink

Player p
white

Crate c
orange

=======
LEGEND
=======
Thing = Wall or Gem

===============
COLLISIONLAYERS
===============
Background
Gem
Wall, Player, Crate

======
RULES
======
[ > Player | Crate ] -> [ > Player | > Crate ]
[ > Player | Wall ] -> cancel

==============
WINCONDITIONS
==============
No Gem

=======
LEVELS
=======

#####
#pg.#
#####

######
#p.c.#
#g..g#
######
"""
# The player steps, pushes the crate, and takes the push back; all else is left out. The crate can't be pushed where it has no room, and an
# undo of a step alone is right in both.
SMALLEST = """OBJECTS
Background .
green
Player p
white
Crate c
orange
LEGEND
COLLISIONLAYERS
Background
Player, Crate
RULES
[ > Player | Crate ] -> [ > Player | > Crate ]
LEVELS
pc.
"""
INPUTS = [2, 2, 1, 0, 3, 2, 0, 3, 3, 1, "undo", "undo", 3, 1, "undo", 0, 4]
ENTRY = Entry(0, "a", "", [], "", 0, {}, False)


def lines_left(source: str) -> List[str]:
    """The lines of a source that aren't empty, with names of one layer in the order of the alphabet."""
    return [" ".join(sorted(it.replace(",", " ").split())) if "," in it else it for it in source.split("\n") if it]


class OnAYard(OnSessions):
    """Tests on a long session of a yard, with two engines of which the second has a bug."""

    def setUp(self) -> None:
        super().setUp()
        self.one, self.other = (self.engine(name, has_bug) for name, has_bug in (("one", False), ("other", True)))
        self.sessions = self.write("sessions.json", json.dumps([["a long day in the yard", [SOURCE, INPUTS, "", 1]], ["idle", [SOURCE, [], "", 0]]]))

    def engine(self, name: str, has_bug: Union[bool, str]) -> Path:
        tests = Path(__file__).resolve().parent
        path = self.write(name, f"#!/usr/bin/env python3\nimport sys\nsys.dont_write_bytecode = True\nsys.path.insert(0, {str(tests)!r})\nfrom stand_in import main\nmain({has_bug})\n")
        path.chmod(0o755)
        return path

    def shrink(self, *words: object) -> Answer:
        return run("shrink", self.one, self.other, self.sessions, *words)


class Shrink(OnAYard):
    def test_the_smallest_session_on_which_they_part_is_written_as_a_case(self) -> None:
        answer = self.shrink("a long day*", self.room / "case.json")
        self.assertEqual((answer.status, answer.errors), (0, ""))
        case = read_case(self.room / "case.json")
        [[name, [source, inputs, level, index]]] = json.loads(case.input)
        self.assertEqual(lines_left(source), lines_left(SMALLEST))
        self.assertEqual((name, inputs, index, level), ("a long day in the yard", [3, "undo"], 0, "background player:0,background crate:1,background:2,\n"))
        self.assertEqual([json.loads(it).get("kind") for it in case.stdout.splitlines()], ["start", "move", "undo", None])
        self.assertEqual((case.words, case.stderr, case.status), ([], b"", 0))
        self.assertIn("frame 2, after input 1 (undo)\n", answer.out)
        self.assertIn("from 17 inputs and", answer.out)

    def test_programs_that_show_the_same_have_nothing_to_shrink(self) -> None:
        answer = self.shrink("idle")
        self.assertEqual((answer.status, answer.errors), (1, ""))
        self.assertIn("show the same", answer.out)

    def test_what_can_not_be_shrunk_is_refused(self) -> None:
        self.assert_refused(self.shrink("a long day*", self.write("there", "")), "is there already")
        self.assert_refused(self.shrink("nobody", self.room / "case.json"), "has no session named 'nobody'")
        self.assert_refused(run("shrink", self.one, self.room / "none", self.sessions, "idle"), "there is no program at")
        self.assertFalse((self.room / "case.json").exists())

    def test_a_case_takes_another_name_where_its_own_is_there_meanwhile(self) -> None:
        """The second program makes the file once it is called, as another call would."""
        case = self.room / "case.json"
        other = self.engine("maker", f"open({str(case)!r}, 'a').close() is None")
        answer = run("shrink", self.one, other, self.sessions, "a long day*", case)
        self.assertEqual((answer.status, answer.errors), (0, f"shrink: {case} has come to be there meanwhile: the case is written as {self.room}/case-2.json\n"))
        self.assertIn(f"the case is {self.room}/case-2.json\n", answer.out)
        self.assertEqual((case.read_text(), read_case(self.room / "case-2.json").status), ("", 0))
        self.assertEqual(list(self.room.glob(".saxtegun-*")), [])

    def test_a_case_is_written_over_nothing(self) -> None:
        """The first names are of a folder, a file and a link to nothing."""
        names = [str(self.room / name) for name in ("c.json", "c-2.json", "c-3.json", "c-4.json")]
        self.room.joinpath("c.json").mkdir()
        self.write("c-2.json", "kept")
        self.room.joinpath("c-3.json").symlink_to("nothing")
        self.assertEqual(write_case(names[0], "{}\n"), names[3])
        self.assertEqual([Path(names[it]).read_text() for it in (1, 3)], ["kept", "{}\n"])
        self.assertEqual((os.listdir(names[0]), os.path.lexists(self.room / "nothing")), ([], False))

    def test_what_ends_it_as_the_case_gets_its_name_leaves_no_empty_file(self) -> None:
        def made(path: str) -> str:
            self.write("c.json", "")
            signal.raise_signal(signal.SIGTERM)
            return path

        before = signal.signal(signal.SIGTERM, lambda *_: sys.exit(15))
        try:
            with mock.patch("saxtegun.verbs.shrink.taken_name", made), self.assertRaises(SystemExit):
                write_case(str(self.room / "c.json"), "{}\n")
        finally:
            signal.signal(signal.SIGTERM, before)
        self.assertEqual(((self.room / "c.json").read_text(), list(self.room.glob(".saxtegun-*"))), ("{}\n", []))

    def test_what_ends_it_ends_the_program_that_it_waits_for(self) -> None:
        """Also where Python takes the thread for ended in which that is waited for."""
        sleeper = self.write("sleeper", f"#!/bin/sh\necho $$ >>'{self.room}/pids'\nexec sleep 1000\n")
        sleeper.chmod(0o755)
        pids = self.room / "pids"
        for number in (signal.SIGTERM, signal.SIGINT, signal.SIGHUP):
            pids.unlink(missing_ok=True)
            command = [sys.executable, TOP / "saxtegun", "shrink", sleeper, self.other, self.sessions, "idle", self.room / "case.json", "--timeout", "100"]
            ran = subprocess.Popen(list(map(str, command)), stdin=subprocess.DEVNULL, stdout=subprocess.DEVNULL, stderr=subprocess.DEVNULL, env=environment(), preexec_fn=hear_signals)
            while not pids.exists() or not pids.read_text().endswith("\n"):
                time.sleep(0.05)
            time.sleep(0.5)
            ran.send_signal(number)
            ran.wait(60)
            self.assertEqual(state_of(int(pids.read_text())), "X", number)

    def test_what_ends_it_ends_what_reads_too(self) -> None:
        """The program has written very much, and ended."""
        frame = '{"at":%d,"frame":%d,"kind":"move","level":"a:0,","session":0}\n'
        writer = self.write("writer", f"#!{sys.executable}\nimport sys\nfor number in range(600_000): sys.stdout.write({frame!r} % (number, number))\nsys.stdout.flush()\nopen({str(self.room / 'done')!r}, 'w').close()\n")
        writer.chmod(0o755)
        command = [sys.executable, TOP / "saxtegun", "shrink", writer, writer, self.sessions, "idle", self.room / "case.json"]
        ran = subprocess.Popen(list(map(str, command)), stdin=subprocess.DEVNULL, stdout=subprocess.DEVNULL, stderr=subprocess.DEVNULL, env=environment(), preexec_fn=hear_signals)
        while not (self.room / "done").exists():
            time.sleep(0.05)
        time.sleep(0.5)
        ran.send_signal(signal.SIGINT)
        self.assertEqual(ran.wait(), 2)

    def test_a_case_has_the_lines_that_were_looked_at(self) -> None:
        """The program that is kept says nothing in its last call."""
        entry = ENTRY._replace(source=SOURCE, inputs=[3])
        engine = Engine(program=str(self.one))
        [shown] = answers([entry], engine)
        of = Sessions("s.json", "", [entry])
        lines = lines_of(case_of_entry(entry, shown, engine, of)).splitlines(keepends=True)
        self.assertEqual(len(lines), 3)
        frames, close = lines[:-1], lines[-1]
        stopped = re.sub('"close":"(passed|differs)"', '"cause":"loop-limit","close":"stopped"', close)
        wrongs: Tuple[List[str], ...] = ([], ['{"at":0,"frame":0,"kind":"start","level":"a:0,","session":0}\n'], ["no line\n"], frames, [*frames, stopped], [*lines, close], [*lines, "x\n"])
        for wrong in wrongs:
            with self.assertRaises(Refused):
                case_of_entry(entry, shown, self.saying(wrong), of)
        # what passes and what differs hangs on the recorded level alone
        turned = close.replace("differs", "passed") if "differs" in close else close.replace("passed", "differs")
        self.assertEqual(lines_of(case_of_entry(entry, shown, self.saying([*frames, turned]), of)), "".join([*frames, turned]))

    def saying(self, lines: List[str]) -> Engine:
        """An engine that writes these lines, whatever it is asked."""
        text = self.write("said.lines", "".join(lines))
        program = self.write("saying", f"#!/bin/sh\ncat '{text}'\n")
        program.chmod(0o755)
        return Engine(program=str(program))

    def test_a_program_that_shows_something_else_each_time_makes_no_case(self) -> None:
        """It has the bug in its first call, and then in none."""
        flaky = self.engine("flaky", "(lambda log: log.write('x') and log.tell() == 1)(open(__file__ + '.log', 'a'))")
        answer = run("shrink", self.one, flaky, self.sessions, "a long day*", self.room / "case.json")
        self.assert_refused(answer, "no longer parts as it did before: a program doesn't show the same each time")
        self.assertFalse((self.room / "case.json").exists())

    def test_two_programs_that_both_fail_make_no_case(self) -> None:
        """One ends by a signal, and the other takes longer than anybody waits."""
        ends, hangs = self.write("ends", "#!/bin/sh\nkill -9 $$\n"), self.write("hangs", "#!/bin/sh\nexec sleep 1000\n")
        for it in (ends, hangs):
            it.chmod(0o755)
        answer = run("shrink", ends, hangs, self.sessions, "idle", self.room / "case.json", "--timeout", "1")
        self.assertEqual((answer.status, answer.out.count("idle: ")), (2, 2), answer)
        self.assertIn("shrink: both programs fail on idle, and a case has the lines of one that doesn't\n", answer.errors)
        self.assertFalse((self.room / "case.json").exists())

    def test_what_tells_no_stages_keeps_no_rules(self) -> None:
        teller = self.write("teller", "#!/bin/sh\necho 'no stages' >&2\nexit 2\n")
        teller.chmod(0o755)
        answer = self.shrink("a long day*", self.room / "case.json", "--stages", teller, teller)
        self.assert_refused(answer, "--stages: a long day in the yard was not played: no stages")
        self.assertFalse((self.room / "case.json").exists())


class Counting(Programs):
    """Programs that part on the sessions whose names begin with x, and count what they play."""

    played: List[int] = []

    def pairs(self, entries: Sequence[Entry]) -> Iterator[Tuple[Run, Run]]:
        self.played.append(len(entries))
        for it in entries:
            yield Run(0, it.name, "passed", None, []), Run(0, it.name, "differs" if it.name[0] == "x" else "passed", None, [])


class First(unittest.TestCase):
    def test_the_first_that_parts_is_found_by_playing_few_behind_it(self) -> None:
        """Each may take all the time that a session has, where a program hangs."""
        for count, divergence, wanted in ((1000, 0, [1]), (1000, 5, [1, 2, 4]), (5, 5, [1, 2, 2])):
            with self.subTest(divergence):
                Counting.played = []
                entries = [ENTRY._replace(name="x" if it >= divergence else "a") for it in range(count)]
                found = first_that_parts(Counting(Engine(), Engine()), entries)
                self.assertEqual((found is not None, Counting.played), (divergence < count, wanted))


    def test_what_each_lets_go_may_be_kept_by_all_together(self) -> None:
        """As where a program doesn't show the same each time."""
        shrinking = Shrinking(Programs(Engine(), Engine()), ENTRY, (), lambda *_: None)
        kept: List[Tuple[List[List[int]], Set[int]]] = [([[0, 1], []], {5}), ([[0, 1], [0]], {5, 1}), ([[0, 1], [0, 1]], {5, 1, 2}), ([[], []], {5})]
        for answers, wanted in kept:
            with mock.patch.object(Shrinking, "places_that_part", side_effect=[iter(it) for it in answers]), mock.patch("saxtegun.shrinking.fails", return_value=False):
                self.assertEqual(shrinking.gone_with([{1}, {2}], {5}, lambda gone: ENTRY), wanted)


    def test_no_stage_is_made_once_its_time_is_over(self) -> None:
        """A stage looks through all of a source, which may be long."""
        stage = mock.Mock(return_value=(0, lambda gone: ENTRY))
        for end, calls in ((-1.0, 0), (float("inf"), 1)):
            shrinking = Shrinking(Programs(Engine(), Engine(), end=end), ENTRY, (), lambda *_: None)
            self.assertEqual((shrinking.leave_out(stage), stage.call_count), (False, calls))


class Smaller(unittest.TestCase):
    """What each stage leaves out."""

    def without(self, stage: Any, source: str, *left: int, **words: Any) -> Any:
        count, without = stage(ENTRY._replace(source=source, **words))
        return count, without(set(left))

    def test_inputs_and_levels_go_one_by_one(self) -> None:
        self.assertEqual(self.without(of_inputs, "", 0, 2, inputs=[1, 2, 3])[1].inputs, [2])
        count, entry = self.without(of_levels, "LEVELS\np\n\nmessage (x\nq\nq\n", 0, 1, index=2)
        self.assertEqual((count, entry.source, entry.index), (3, "LEVELS\n\nq\nq\n", 0))

    def test_the_next_rule_begins_a_group_whose_first_is_gone(self) -> None:
        rules = "RULES\nlate [ a ] -> [ ]\n + [ b ] -> [ ]\n+ [ c ] -> [ ]\n[ d ] -> [ ]\n"
        self.assertEqual(self.without(of_lines("rules"), rules, 0)[1].source, "RULES\n   [ b ] -> [ ]\n+ [ c ] -> [ ]\n[ d ] -> [ ]\n")
        self.assertEqual(self.without(of_lines("rules"), rules, 0, 1)[1].source, "RULES\n  [ c ] -> [ ]\n[ d ] -> [ ]\n")
        self.assertEqual(self.without(of_lines("rules"), rules, 1)[1].source, "RULES\nlate [ a ] -> [ ]\n+ [ c ] -> [ ]\n[ d ] -> [ ]\n")

    def test_a_loop_goes_with_both_its_words(self) -> None:
        self.assertEqual(self.without(of_loops, "RULES\nstartLoop\na\nendloop\n", 0), (1, ENTRY._replace(source="RULES\na\n")))

    def test_a_column_goes_from_each_row(self) -> None:
        self.assertEqual(self.without(of_columns, "LEVELS\nabc\nde\n\nf\n", 1), (4, ENTRY._replace(source="LEVELS\nac\nd\n\nf\n")))

    def test_an_object_goes_from_all_sections(self) -> None:
        source = "OBJECTS\nBackground .\nred\nWall W #\nred\n0\nGem\nred\nLEGEND\n= = Wall\nT = Gem or Wall\n@ = Wall and Gem\nCOLLISIONLAYERS\nBackground\nWall, Gem\nWall\nLEVELS\n.#=\n"
        left = "OBJECTS\nBackground .\nred\nGem\nred\nLEGEND\nT = Gem\n@ = Gem\nCOLLISIONLAYERS\nBackground\nGem\nLEVELS\n...\n"
        self.assertEqual(self.without(of_objects, source, 1)[1].source, left)

    def test_no_stage_fails_on_what_is_no_game(self) -> None:
        for source in ("", "LEVELS", "OBJECTS\nx", "LEGEND\n=\n= =\na = a\nCOLLISIONLAYERS\n,\nLEVELS\nmessage\n(", SOURCE[:500]):
            for stage in STAGES:
                count, without = stage(ENTRY._replace(source=source, inputs=[1]))
                without(set(range(count)))
                self.assertEqual(count > 0 and without(set()).source, count > 0 and source)


@plays
class DayOfShrinking(OnAYard):
    def test_a_wrapper_that_spoils_undo_is_reported_by_two_inputs(self) -> None:
        other = self.write("spoilt", f"#!/bin/sh\n{PROGRAM} \"$@\" | sed 's/\"kind\":\"undo\"/\"kind\":\"restart\"/'\nexit 1\n")
        other.chmod(0o755)
        answer = run("shrink", PROGRAM, other, self.sessions, "a long day*", self.room / "case.json")
        self.assertEqual((answer.status, answer.errors), (0, ""))
        [[_, [source, inputs, _, _]]] = json.loads(read_case(self.room / "case.json").input)
        self.assertEqual(inputs, ["undo"])
        self.assertEqual(lines_left(source), ["OBJECTS", "Background .", "green", "Player p", "white", "LEGEND", "COLLISIONLAYERS", "Background", "Player", "LEVELS", "."])

    def test_programs_that_part_with_one_more_input_alone_are_shrunk_with_it(self) -> None:
        """Behind the press the level is won, which has no frame of its own; the undo shows that play is over."""
        source = "OBJECTS\nBackground .\ngreen\nPlayer p\nwhite\nLEGEND\nCOLLISIONLAYERS\nBackground\nPlayer\nWINCONDITIONS\nSome Player\nLEVELS\np."
        sessions = self.write("won.json", json.dumps([["won", [source, [3], "", 0]]]))
        other = self.write("goes-on", f"#!/bin/sh\n{PROGRAM} \"$@\" | sed 's/\"kind\":\"over\"/\"kind\":\"undo\"/'\nexit 1\n")
        other.chmod(0o755)
        answer = run("shrink", PROGRAM, other, sessions, "won", self.room / "case.json")
        self.assertEqual((answer.status, answer.errors), (0, ""))
        self.assertIn("won: frame 2, after input 1 (undo): one shows over of 2 inputs, the other undo of 2\n", answer.out)
        [[_, [_, inputs, _, _]]] = json.loads(read_case(self.room / "case.json").input)
        kinds = [json.loads(it).get("kind") for it in read_case(self.room / "case.json").stdout.splitlines()]
        self.assertEqual((inputs[1:], kinds), (["undo"], ["start", "move", "over", None]))


if __name__ == "__main__":
    unittest.main()
