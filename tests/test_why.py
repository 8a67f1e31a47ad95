"""`saxtegun why`: the stages of an input, drawn; the stage at which two texts of a game part; and that `test` leads there."""
from __future__ import annotations

import json
import os
import shutil
import unittest
from pathlib import Path
from time import process_time, sleep
from typing import Any, Dict, Iterator, List, Tuple
from unittest import mock

from day import OnSessions
from stages_stand_in import written_in
from test_regressions import STUCK, InAGitFolder
from test_stages import tells_stages
from test_test import OfAGame
from tool import Answer, case_named, plays, run
from saxtegun import programs, regressions
from saxtegun.budget import EXPLAINING
from saxtegun.commands import Refused
from saxtegun.divergence import divergence_of
from saxtegun.games import game_of
from saxtegun.lines import Frame, Run
from saxtegun.playing import Engine
from saxtegun.sessions import Entry, sessions_in
from saxtegun.stage_descriptions import Text, block_told, drawn, picture
from saxtegun.stage_divergence import counterparts, inputs_to_try, matched, rules_of
from saxtegun.stages import Firing, Heading, Stage, Stop, stages_of, told_in
from saxtegun.verbs import why

PUSH = "[ > player | crate ] -> [ > player | > crate ]"
GAME = """title a yard

objects
background .
green
wall #
brown
player p
white
crate c
orange

legend

collisionlayers
background
wall, player, crate

rules
RULE

winconditions

levels
#####
#.pc.
#####
"""
LINE = 20
# A game without rules, whose level is `#p.#`, and whose first rule would stand on line 26.
WALK = json.loads(case_named("walk-two-steps-right-against-a-wall").input)[0][1][0]
PRESSED = "the press\n    | level      heading\n    | #####      .....\n    | #.pc.      ..>..\n    | #####      .....\n    column 3, row 2: player heads right\n"
HEADED = "    | level      heading\n    | #####      .....\n    | #.pc.      ..>>.\n    | #####      .....\n    column 4, row 2: crate heads right\n"
MOVED = """\
the movement
    | level      changed
    | #####      .....
    | #..pc      ..***
    | #####      .....
    column 3, row 2: background; before: background player
    column 4, row 2: background player; before: background crate
    column 5, row 2: background crate; before: background
the end: the level is another than before the step
"""


def line_of(**changed: Any) -> str:
    """A line of stages, with some of its values changed."""
    line = {"changed": True, "commands": [], "headings": [[1, 0, "player", "right"]], "input": 1, "level": "background:0,\n", "stage": "input", "tick": 0}
    return json.dumps({key: value for key, value in {**line, **changed}.items() if value is not None})


def firing_line(**changed: Any) -> str:
    """A line of a firing, with some of its values changed."""
    firing: Dict[str, Any] = {"block": 0, "direction": "right", "group": 0, "instance": 3, "line": 26, "pass": 2, "places": [[[1, 0, 0], [2, 0, 1]], [[3, 0, 0], [2, 0, 1]]], "round": 1, "stage": "early"}
    return line_of(**{"changed": None, "commands": None, "headings": [], **firing, **changed})


# A session of nothing.
NOTHING = Entry(0, "a", "", [], "", 0, {}, False)


class OfAYard(OnSessions):
    """Tests on a small game, which two small programs play and tell."""

    def setUp(self) -> None:
        super().setUp()
        patch = mock.patch.dict(os.environ, written_in(self.room))
        patch.start()
        self.addCleanup(patch.stop)
        self.game = self.text(PUSH)
        self.recordings = self.write("r.json", json.dumps([["walk", ["", [1, 3, 3, "undo"], ""]], ["walk on", ["", [3], ""]]]))

    def text(self, rule: str, name: str = "game.txt", title: str = "a yard") -> Path:
        return self.write(name, GAME.replace("RULE", rule).replace("a yard", title, 1))

    def why(self, *words: object) -> Answer:
        return run("why", self.game, self.recordings, "--session", "walk", *words)


class Why(OfAYard):
    def test_each_stage_of_an_input_is_drawn(self) -> None:
        answer = run("why", self.game, self.recordings, "--session", "walk on")
        self.assertEqual((answer.status, answer.errors), (0, ""))
        rule = f"early rule on line {LINE}\n    {self.game}:{LINE}: {PUSH}\n"
        self.assertEqual(answer.out, f"session 1, walk on: input 0 (right)\n{PRESSED}{rule}{HEADED}{MOVED}")

    def test_without_an_input_it_is_that_of_the_last_step(self) -> None:
        self.assertTrue(self.why().out.startswith("session 0, walk: input 2 (right)\n"))
        self.assertTrue(self.why("--input", "1").out.startswith("session 0, walk: input 1 (right)\n"))

    def test_an_input_that_takes_no_step_says_so(self) -> None:
        for word, where in (("3", "input 3 (undo)"), ("start", "the start")):
            answer = self.why("--input", word)
            self.assertEqual((answer.status, answer.out), (0, f"session 0, walk: {where}\nno stages: it takes no step\n"))

    def test_the_lines_are_written_as_they_are(self) -> None:
        lines = [json.loads(it) for it in self.why("--input", "1", "--json").out.splitlines()]
        self.assertEqual([it["stage"] for it in lines], ["input", "movement", "end"])

    def test_two_texts_part_at_the_rule_that_is_gone(self) -> None:
        old = self.text(f"{PUSH}\n", "old.txt")
        self.game = self.text("[ crate ] -> [ crate ]")
        answer = self.why("--old", old)
        self.assertEqual((answer.status, answer.errors), (1, ""))
        lines = answer.out.splitlines()
        self.assertEqual(lines[0], f"session 0, walk: input 2 (right), early rule on line {LINE}: acts in the old text, not in the new text")
        self.assertEqual(lines[1:4], [
            "    the frames part at frame 3, after input 2 (right)",
            f"    in the old text, {old}:{LINE}: {PUSH}",
            f"    in the new text, {self.game}:{LINE}: [ crate ] -> [ crate ]",
        ])  # fmt: skip
        self.game, old = old, self.game
        self.assertIn(f"early rule on line {LINE}: acts in the new text, not in the old text\n", self.why("--old", old).out)

    def test_the_same_text_and_one_whose_lines_have_moved_don_t_part(self) -> None:
        answer = self.why("--old", self.text(f"\n(moved)\n{PUSH}", "old.txt"))
        self.assertEqual((answer.status, answer.out), (0, "session 0, walk: the same frames, and the same stages\n"))

    def test_what_is_no_rule_is_told_as_that(self) -> None:
        old = self.write("old.txt", self.game.read_text(encoding="utf-8").replace("#.pc.", "#.p.."))
        self.assertEqual(self.why("--old", old).out.splitlines()[0], "session 0, walk: the frames part at frame 0, at the start")

    def test_what_is_asked_wrongly_is_refused(self) -> None:
        self.assert_refused(run("why", self.game, self.recordings, "--session", "walk*"), "fits 2 sessions of")
        self.assert_refused(run("why", self.game, self.recordings, "--session", "run"), "fits no session of")
        self.assert_refused(self.why("--input", "4"), "walk has 4 inputs, counted from 0")
        self.assert_refused(self.why("--input", "-1"), "")
        for words in (("--input", "1"), ("--firings",), ("--json",)):
            self.assert_refused(self.why(*words, "--old", self.game), "--old finds the input itself")
        self.assert_refused(run("why", self.recordings, "--session", "walk"), "is refused")
        self.game = self.write("broken.txt", "title x")
        self.assert_refused(self.why(), f"walk is refused over {self.game}: ")


class Guarded(OfAYard):
    def test_lines_of_none_of_its_stages_are_refused(self) -> None:
        good = line_of()
        for lines in (
            "[]\n", "x\n", good, line_of(input=2) + "\n", line_of(stage="x") + "\n", line_of(tick=-1) + "\n", line_of(tick=2) + "\n", f"{line_of(tick=1)}\n{good}\n", line_of(level=None) + "\n",
            line_of(level="\ud800") + "\n", line_of(changed=1) + "\n", line_of(commands=["\x1b[2J"]) + "\n", line_of(headings=[[1, 0, "p", "\x1b"]]) + "\n", line_of(headings=[[1, 0, "p"]]) + "\n",
            line_of(headings=[[-1, 0, "p", "up"]]) + "\n", line_of(block=0) + "\n", line_of(stage="early") + "\n", line_of(stage="early", block=0, lines=[0]) + "\n", "[" * 100_000 + "\n",
            json.dumps({"input": 1, "tick": 0, "stop": "\x1b"}) + "\n", "\n",
        ):  # fmt: skip
            with self.subTest(lines[:100]), mock.patch("saxtegun.stages.lines_of_stages", return_value=lines.splitlines(True)):
                with self.assertRaisesRegex(Refused, "^line [12] of what the program of stages wrote is no stage of its input$"):
                    list(stages_of(NOTHING, 1, Engine()))

    def test_a_line_that_is_no_stage_is_not_written(self) -> None:
        self.game = self.text(PUSH, title="forged " + json.dumps("\x1b[2J\n"))
        for words in (("--json",), ()):
            answer = self.why("--input", "0", *words)
            self.assertEqual((answer.status, "\x1b" in answer.out + answer.errors), (2, False))
            self.assertIn("line 1 of what the program of stages wrote is no stage of its input", answer.errors)

    def test_a_program_that_has_no_answer_is_not_waited_for(self) -> None:
        (self.room / "saxtegun_stages").write_text(f"#!/bin/sh\nsleep 30\necho >'{self.room}/came-to-its-end'\n", encoding="utf-8")
        shown = [[Frame(0, "start", "background:0,"), Frame(1, "move", it)] for it in ("background:0,", "player:0,")]
        runs = Run(0, "a", "passed", None, shown[0]), Run(0, "a", "differs", None, shown[1])
        old, new = (Entry(0, "a", source, [3], "", 0, {}, False) for source in ("one", "other"))
        divergence = divergence_of(*runs)
        assert divergence is not None
        left = EXPLAINING.left
        with mock.patch.object(regressions, "SECONDS_TO_LEAD", 0.2):
            self.assertEqual(regressions.leads([regressions.Broken(old, new, runs, divergence)] * 20, "game.txt", Engine()), {})
        self.assertFalse((self.room / "came-to-its-end").exists())
        self.assertLess(EXPLAINING.left, left)

    def test_a_stop_behind_many_ticks_is_not_looked_for_without_end(self) -> None:
        """Ticks that change nothing show nothing, and for each of them the session is played anew."""
        sessions = sessions_in("x", json.dumps([["a", ["", ["tick"] * 1000, ""]]]))
        asked = why.Asked(sessions.entries[0], sessions, Text("", "", "columns"), Engine())
        stopped = Run(0, "a", "stopped", "loop-limit", [Frame(0, "start", "background:0,\n")])
        played: List[int] = []

        def nothing(entry: Entry, at: int, engine: Engine) -> Iterator[Any]:
            played.append(at)
            sleep(0.01)
            return iter(())

        with mock.patch.object(why, "stages_of", nothing), mock.patch.object(why, "SECONDS", 0.05), self.assertRaisesRegex(Refused, "in 0.05 s: name one by --input"):
            why.stop_in(asked, stopped)
        self.assertLess(len(played), 10)

    def test_stages_without_end_are_not_drawn_without_end(self) -> None:
        """A game of 7 KB has two million firings in one input. What the program of stages takes is no time of drawing."""
        sessions = sessions_in("x", json.dumps([["a", [self.text(PUSH).read_text(encoding="utf-8"), [3], ""]]]))
        entry = sessions.entries[0]
        asked = why.Asked(entry, sessions, Text(entry.source, "", "columns"), Engine())
        drawn_lines: List[str] = []

        def endless(entry: Entry, at: int, engine: Engine) -> Iterator[Stage]:
            begin = process_time()
            while process_time() < begin + 0.2:
                pass
            while True:
                yield Stage(0, "early", 0, (LINE,), True, (), (), "background:0,\n")

        with mock.patch.multiple(why, stages_of=endless, stages_and_firings_of=endless, show=drawn_lines.append, SECONDS=0.05):
            for has_firings in (False, True):
                drawn_lines.clear()
                with self.assertRaisesRegex(Refused, "^the stages behind are not drawn, since drawing took 0.05 s already: --json writes the lines of all$"):
                    why.tell_stages(asked, 1, has_firings)
                self.assertIn(f"early rule on line {LINE}", drawn_lines)

    def test_letters_that_a_terminal_obeys_are_told_by_their_numbers(self) -> None:
        self.game = self.text(PUSH, title="forged " + json.dumps(line_of(level="back\x1b[2J:0,\n", headings=[[200, 200, "p\x9b2J", "up"], [0, 0, "p\x9b2J", "up"]]) + "\n"))
        answer = self.why("--input", "0")
        self.assertEqual(answer.status, 0)
        self.assertIn("p\\u{9b}2J heads up\n", answer.out)
        self.assertFalse({"\x1b", "\x9b"} & set(answer.out))

    def test_a_line_is_read_as_what_it_is(self) -> None:
        self.assertEqual(told_in(line_of(), 1), Stage(0, "input", None, (), True, (), (Heading(1, 0, "player", "right"),), "background:0,\n"))
        late = told_in(line_of(stage="late", block=2, lines=[7, 9], commands=["again"]), 1)
        assert isinstance(late, Stage)
        self.assertEqual(late.lines, (7, 9))
        self.assertEqual(told_in('{"input":3,"stop":"loop-limit","tick":1}', 3), Stop(1, "loop-limit"))
        self.assertEqual(told_in(firing_line(), 1), Firing(0, "early", 26, "right", 1, 2, (((1, 0), (2, 0)), ((3, 0), (2, 0))), (), "background:0,\n"))

    def test_a_line_of_no_firing_is_refused(self) -> None:
        wrong: Tuple[Dict[str, Any], ...] = (
            {"stage": "input"}, {"direction": "x"}, {"line": "26"}, {"round": -1}, {"group": None}, {"pass": 1.5}, {"instance": True}, {"block": None}, {"level": None}, {"level": "\ud800"},
            {"places": []}, {"places": [[[1, 0]]]}, {"places": [[1, 0, 0]]}, {"places": [[[1, 0, -1]]]}, {"places": "x"}, {"headings": [[1]]}, {"headings": None},
        )  # fmt: skip
        for changes in wrong:
            with self.subTest(changes):
                self.assertIsNone(told_in(firing_line(**changes), 1))

    def test_firings_that_were_not_asked_for_are_refused(self) -> None:
        with mock.patch("saxtegun.stages.lines_of_stages", return_value=[firing_line() + "\n"]), self.assertRaisesRegex(Refused, "is no stage of its input"):
            list(stages_of(NOTHING, 1, Engine()))


class Programs(unittest.TestCase):
    def test_what_tells_stages_is_named_or_found(self) -> None:
        with mock.patch.dict(os.environ, {"SAXTEGUN_STAGES": "/bin/sh"}):
            self.assertEqual(programs.stages_words(), ["/bin/sh"])
        with mock.patch.dict(os.environ, {"SAXTEGUN_STAGES": "/nowhere"}), self.assertRaisesRegex(Refused, "SAXTEGUN_STAGES"):
            programs.stages_words()
        words = {it: value for it, value in os.environ.items() if it != "SAXTEGUN_STAGES"}
        with mock.patch.dict(os.environ, words, clear=True), mock.patch.multiple(programs, STAGES=(), STAGES_IN_NODE=programs.TOP / "none", CHOSEN_FOR_STAGES=[]):
            self.assertRaisesRegex(Refused, "nothing here tells stages", programs.stages_words)


    @unittest.skipUnless(shutil.which("node"), "Node is not there: dev/tools installs it")
    def test_without_a_program_it_is_the_module_in_node(self) -> None:
        words = {it: value for it, value in os.environ.items() if it != "SAXTEGUN_STAGES"}
        script = programs.TOP / "engine/replay.mjs"
        with mock.patch.dict(os.environ, words, clear=True), mock.patch.multiple(programs, STAGES=(), STAGES_IN_NODE=script, CHOSEN_FOR_STAGES=[]):
            called = programs.stages_words()
            self.assertEqual(called, [shutil.which("node"), str(script)])
            self.assertEqual((programs.environment_of(called) or {})["SAXTEGUN_MODULE"], str(programs.RELEASED / programs.MODULE))


class OfOneName(OnSessions):
    """Sessions of which another has the name are asked for by their numbers."""

    def test_each_is_asked_for_by_its_number(self) -> None:
        again = json.dumps([["a", ["", [], ""]], ["b", ["", [], ""]], ["a", ["", [1], ""]]])
        sessions = sessions_in("s.json", again)
        self.assertRaisesRegex(Refused, r"^--session 'a' fits 2 sessions of s\.json: a \(--number 0\), a \(--number 2\)$", why.entry_named, sessions, "a")
        self.assertIs(why.entry_at(sessions, 2), sessions.entries[2])
        path = self.write("s.json", again)
        self.assert_refused(run("why", path, "--number", "2", "--input", "7", "--program", "/bin/true"), "a has 1 input, counted from 0")
        self.assert_refused(run("why", path, "--number", "3", "--program", "/bin/true"), "has no session 3: 3 sessions, counted from 0")
        for words in (("--number", "-1"), ("--number", "a"), ("--number", "1", "--session", "b"), ()):
            self.assertEqual(run("why", path, *words).status, 2)


class InWords(unittest.TestCase):
    def test_groups_and_loops_are_told_by_their_lines(self) -> None:
        source = GAME.replace("RULE", "startloop\n[ crate ] -> [ crate ]\n[ player ] -> [ player ]\nendloop\nlate [ crate ] -> [ crate ]\n+ [ player ] -> [ player ]")
        stage = Stage(0, "early", 0, (21, 22), True, (), (), "")
        self.assertEqual(block_told(stage, source), "early loop of lines 20 to 23")
        self.assertEqual(block_told(stage._replace(name="late", lines=(24, 25)), source), "late group of lines 24 to 25")
        self.assertEqual(block_told(stage._replace(name="late", lines=(24,)), source), "late rule on line 24")

    def test_arrows_of_one_cell_that_differ_are_a_plus(self) -> None:
        rows = [[("background", "player"), ("background", "crate", "x")]]
        headings = [Heading(0, 0, "player", "left"), Heading(0, 0, "mark", "up"), Heading(1, 0, "crate", "action")]
        self.assertEqual(picture(rows, [(1, 0)], headings, game_of(GAME)), ["| level      changed    heading", "| p?         .*         +a"])

    def test_a_level_that_can_t_be_read_back_is_told_as_that(self) -> None:
        stage = Stage(0, "end", None, (), True, (), (), "a,b:0,\n")
        self.assertIn("holds a comma", drawn(stage, None, Text("", "", "rows"))[0])

    def test_inputs_are_tried_from_where_frames_part_or_one_may_have_stopped(self) -> None:
        entry = Entry(0, "a", "", [3] * 9, "", 0, {}, False)
        frames = [Frame(it, "move", "background:0,") for it in range(4)]
        other = Frame(3, "move", "player:0,")

        def run_of(close: str, *frames: Frame) -> Run:
            return Run(0, "a", close, None, list(frames))

        for one, two, wanted in (
            (run_of("passed", *frames), run_of("differs", *frames[:3], other), (range(3, 4), range(3))),
            (run_of("passed", *frames), run_of("stopped", *frames[:2]), (range(1, 3), range(1))),
            (run_of("passed", *frames), run_of("stopped", *frames), (range(3, 10), range(3))),
            (run_of("passed", *frames), run_of("stopped"), (range(1), range(0))),
            (run_of("passed", *frames), run_of("passed", *frames), (range(10), range(0))),
        ):
            self.assertEqual(inputs_to_try(entry, (one, two), divergence_of(one, two)), wanted)

    def test_rules_are_matched_by_their_text_wherever_they_stand(self) -> None:
        old = GAME.replace("RULE", "[ a ] -> [ b ]\n[ c ] -> [ d ]\n[ e ] -> [ f ]")
        new = GAME.replace("RULE", "(first)\n[ new ] -> [ b ]\n[A]->[B]\n[ c ] -> [ x ]\n[ e ] -> [ f ] (same)")
        self.assertEqual(counterparts(old, new), {20: {22}, 21: {23}, 22: {24}})
        self.assertEqual(rules_of(new)[22], "[ a ] -> [ b ]")
        self.assertEqual(sorted(matched(["a", "b", "z"], ["a", "z"])), [(0, 0), (2, 1)])
        # the second was edited, and moved before the first
        self.assertEqual(sorted(matched(["[ x ] -> [ y ]", "late [ crate mark ] -> [ spike ] win"], ["late [ crate mark ] -> [ spike ]", "[ x ] -> [ y ]"])), [(0, 1), (1, 0)])
        long = [f"{it} {it}" for it in range(1000)]
        self.assertEqual(sorted(matched(["a", *long, "z"], ["b", *reversed(long), "z"])), [*((it, 1001 - it) for it in range(1, 1001)), (1001, 1001)])


@plays
@tells_stages
class DayOfWhy(OfAGame):
    def test_the_stop_is_the_input_in_whose_step_it_is(self) -> None:
        """A tick that changes nothing shows nothing; behind it the third input stops. And a stop in a tick that again has asked for."""
        source = WALK
        for rules, level, inputs, where in (
            ("[ > Player | Wall ] -> [ > Player | Wall Mark ]\n[ Mark ] -> [ ]\n+ [ Wall ] -> [ Wall Mark ]", "p.#", [3, "tick", 3], "input 0 (right)"),
            ("late [ Player Mark ] -> [ Player ]\n+ [ Player | | Wall ] -> [ Player Mark | | Wall ]", "p..#", [3, "tick", 3], "input 0 (right)"),
            ("[ > Player | Wall ] -> [ > Player | Spike ]\n[ Spike ] -> [ Crate ]\n+ [ Crate ] -> [ Spike ]", "p.#", [3, "tick", 3], "input 2 (right)"),
            ("[ > Player | Wall ] -> [ > Player | Spike Mark ] again\n[ stationary Player | Mark ] -> [ stationary Player Mark | ]\n+ [ Player Mark | ] -> [ Player | Mark ]", "p.#", [3, 3], "input 1 (right), tick 1"),
        ):  # fmt: skip
            with self.subTest(rules):
                text = source.replace("RULES\n", f"RULES\n{rules}\n").replace("#p.#", level)
                answer = run("why", self.write("game.txt", text), self.write_entries([["a", ["", inputs, ""]]]), "--session", "a", "--order", "rows")
                first, *_, last = answer.out.splitlines()
                self.assertEqual(first, f"session 0, a: {where.partition(', tick')[0]}")
                self.assertIn("(loop-limit)", last)
                self.assertEqual("tick 1" in answer.out, "tick 1" in where)

    def test_a_group_without_rest_tells_each_firing_of_its_passes(self) -> None:
        """The first rule fires once, and both of the group in each of its 200 passes, of which the last is one too many."""
        text = WALK.replace("RULES\n", "RULES\n[ > Player | Wall ] -> [ > Player | Spike ]\n[ Spike ] -> [ Crate ]\n+ [ Crate ] -> [ Spike ]\n").replace("#p.#", "p.#")
        answer = run("why", self.write("game.txt", text), self.write_entries([["a", ["", [3, "tick", 3], ""]]]), "--session", "a", "--order", "rows", "--firings")
        fired = [it for it in answer.out.splitlines() if ": fires " in it]
        self.assertEqual((len(fired), fired[0], fired[1]), (401, "pass 1: fires right at column 2, row 1", "pass 1: fires up at column 3, row 1"))
        self.assertEqual([it.partition(":")[0] for it in fired[1::2]], [f"pass {it}" for it in range(1, 201)])
        self.assertIn("(loop-limit)", answer.out.splitlines()[-1])

    def test_a_text_that_stops_says_what_acts_there_in_the_other(self) -> None:
        source = WALK.replace("#p.#", "p.c")
        old, new = (self.write(name, source.replace("RULES\n", f"RULES\n{rules}\n")) for name, rules in (("o.txt", "[ Crate ] -> [ Spike ]"), ("n.txt", "[ Crate ] -> [ Spike ]\n+ [ Spike ] -> [ Crate ]")))
        lines = run("why", new, self.write_entries([["a", ["", [3], ""]]]), "--session", "a", "--old", old).out.splitlines()
        self.assertEqual(lines[0].partition(", and")[0], "session 0, a: input 0 (right): behind the same stages the new text stops: a group of rules or a loop still changed something in its 200th pass (loop-limit)")
        self.assertEqual(lines[2:], [f"    in the old text, {old}:26: [ Crate ] -> [ Spike ]"])

    def test_a_checkpoint_that_is_gone_is_found_before_the_frames_part(self) -> None:
        """The first press sets it and the third input goes back to it; the rule was also moved."""
        source = WALK.replace("#p.#", "p..")
        rules = "[ Crate ] -> [ Spike ]\n[ > Player | no Crate ] -> [ > Player | ] {}\n", "[ > Player | no Crate ] -> [ > Player | ]\n[ Crate ] -> [ Spike ]\n"
        old, new = (self.write(name, source.replace("RULES\n", f"RULES\n{it.format('checkpoint')}")) for name, it in zip(("o.txt", "n.txt"), rules))
        answer = run("why", new, self.write_entries([["a", ["", [3, 3, "restart"], ""]]]), "--session", "a", "--old", old)
        self.assertEqual(answer.out.splitlines()[:2], [
            "session 0, a: input 0 (right), early rule on line 27: gives checkpoint in the old text, not in the new text",
            "    the frames part at frame 3, after input 2 (restart)",
        ])  # fmt: skip
        self.assertIn(f"    in the new text, {new}:26: [ > Player | no Crate ] -> [ > Player | ]\n", answer.out)

    def test_a_rule_that_both_texts_have_is_not_blamed_alone(self) -> None:
        """Before it one was inserted that moves both crates; or one was moved behind which it acted."""
        push, two = "[ > Player | Crate ] -> [ > Player | > Crate ]", "[ > Player | Crate | Crate ] -> [ > Player | > Crate | > Crate ]"
        spike, back = "[ > Player | Crate ] -> [ > Player | Spike ]", "[ > Player | Spike ] -> [ > Player | Crate ]"
        where = "session 0, a: input 0 (right), early rule on line"
        for level, old_rules, new_rules, told, named in (
            ("pcc.", push, f"{two}\n{push}", f"{where} 26: acts in the new text, not in the old text; the early rule on line 26 acts in the old text, not in the new text", [("n", 26, two), ("o", 26, push), ("n", 27, push)]),
            ("pcc.", f"{two}\n{push}", push, f"{where} 26: acts in the old text, not in the new text; the early rule on line 26 acts in the new text, not in the old text", [("o", 26, two), ("n", 26, push), ("o", 27, push)]),
            ("pc.", f"{spike}\n{back}", f"{back}\n{spike}", f"{where} 27: acts in the old text, not in the new text, though both have it", [("o", 27, back), ("n", 26, back)]),
        ):
            source = WALK.replace("#p.#", level)
            old, new = (self.write(f"{name}.txt", source.replace("RULES\n", f"RULES\n{rules}\n")) for name, rules in (("o", old_rules), ("n", new_rules)))
            lines = run("why", new, self.write_entries([["a", ["", [3], ""]]]), "--session", "a", "--old", old).out.splitlines()
            self.assertEqual(lines[0], told)
            self.assertEqual([it.partition(", ")[2] for it in lines if ".txt:" in it], [f"{self.room}/{name}.txt:{number}: {rule}" for name, number, rule in named])

    def test_an_input_that_only_one_text_takes_leads_to_why(self) -> None:
        """In the old text the first press wins, which shows the same frame, and play is over."""
        source = WALK.replace("#p.#", "p..")
        old, new = self.write("o.txt", source.replace("RULES\n", "RULES\n[ > Player ] -> win\n")), self.write("n.txt", source)
        answer = run("why", new, self.write_entries([["a", ["", [3, 3], ""]]]), "--session", "a", "--old", old)
        self.assertEqual(answer.out.splitlines()[0], "session 0, a: input 0 (right), early rule on line 26: gives win in the old text, not in the new text")

    def test_commands_and_ends_are_told(self) -> None:
        source = WALK
        text = source.replace("RULES\n", "RULES\n[ > Player ] -> cancel checkpoint\n")
        answer = run("why", self.write("game.txt", text), self.write_entries([["a", ["", [3], ""]]]), "--session", "a")
        self.assertIn("early rule on line 26: changes nothing, gives cancel, checkpoint\n", answer.out)
        self.assertIn("\nthe end: the step is cancelled, so the level is the one before it\n", answer.out)


@plays
@tells_stages
class DayOfBrokenRules(InAGitFolder):
    def test_who_broke_a_rule_is_led_to_its_line(self) -> None:
        self.with_rule(STUCK)
        answer = run("test", self.game, self.recordings)
        told = [it.strip() for it in answer.out.splitlines()]
        at = told.index("input 2 (up), early rule on line 78: acts in both, edited: pieces head elsewhere")
        self.assertEqual(told[at + 1 : at + 3], ["in the committed text, line 78: [ > Player | Crate ] -> [ > Player | > Crate ]", f"in the new text, {self.game}:78: {STUCK}"])

    def test_a_rule_that_is_gone_is_named(self) -> None:
        self.with_rule("")
        self.assertIn("    input 2 (up), early rule on line 78: acts in the committed text, not in the new text\n", run("test", self.game, self.recordings).out)

    def test_where_nothing_tells_stages_all_else_is_told(self) -> None:
        self.with_rule(STUCK)
        with mock.patch.dict(os.environ, {"SAXTEGUN_STAGES": "/nowhere"}):
            answer = run("test", self.game, self.recordings)
        self.assertEqual((answer.status, answer.errors), (1, ""))
        self.assertIn("its frames first part at frame 3, after input 2 (up)\n", answer.out)
        self.assertNotIn("early rule", answer.out)


if __name__ == "__main__":
    unittest.main()
