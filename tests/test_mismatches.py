"""Lines that are held against the sessions that they must be of."""
from __future__ import annotations

import json
import unittest
from pathlib import Path
from typing import Any, Callable, List, Tuple, Union

from day import EXAMPLE, OnSessions
from tool import run
from saxtegun.lines import Frame, Run
from saxtegun.mismatches import ALL, NAMES_ALONE, OF_ANY_ENGINE, Tests, mismatch
from saxtegun.sessions import sessions_in

LEVEL, OTHER = "background:0,\n", "background player:0,\n"


def told(inputs: List[Any], frames: Any, close: str = "passed", tests: Tests = ALL, last: str = LEVEL) -> Any:
    """What is said against a session with these inputs, of frames each [inputs taken, kind]."""
    sessions = sessions_in("x", json.dumps([["a", ["", inputs, LEVEL]]]))
    shown = [Frame(at, kind, OTHER) for at, kind in frames]
    if shown:
        shown[-1] = shown[-1]._replace(level=last)
    return mismatch(sessions, Run(0, "a", close, None if close in ("passed", "differs") else "loop-limit", shown), tests)


START = [0, "start"]


class Inputs(unittest.TestCase):
    def test_each_input_is_shown_first_by_a_frame_of_its_kind(self) -> None:
        inputs: List[Tuple[Union[int, str], Tuple[str, ...]]] = [(3, ("move", "restart", "over")), (4, ("move", "restart", "over")), ("undo", ("undo", "over")), ("restart", ("restart", "over")), ("tick", ("tick", "restart", "over"))]
        for it, kinds in inputs:
            for kind in ("move", "undo", "restart", "load", "tick", "over"):
                with self.subTest(f"{it} by {kind}"):
                    word = it if isinstance(it, str) else {3: "right", 4: "action"}[it]
                    wanted = None if kind in kinds else f"session 0 shows '{kind}' at input 0, which is {word}"
                    self.assertEqual(told([it], [START, [1, kind]]), wanted)
                    self.assertEqual(told([it], [START, [1, kind], [1, "load"]]), wanted)

    def test_an_input_that_is_not_shown_was_not_played_but_for_an_idle_tick(self) -> None:
        self.assertEqual(told([3, 1], [START, [1, "move"]]), "session 0 shows nothing of input 1, which is left")
        self.assertEqual(told([3, "undo"], [START, [2, "undo"]]), "session 0 shows nothing of input 0, which is right")
        self.assertEqual(told([3], [START]), "session 0 shows nothing of input 0, which is right")
        self.assertEqual(told([3], [START], "differs", last=OTHER), "session 0 shows nothing of input 0, which is right")
        self.assertIsNone(told(["tick", 3, "tick"], [START, [2, "move"]]))
        self.assertIsNone(told(["tick"], [START]))
        self.assertIsNone(told([], [START]))

    def test_a_session_that_was_stopped_took_the_inputs_that_it_shows(self) -> None:
        self.assertIsNone(told([3, 1, 2], [START, [1, "move"]], "stopped"))
        self.assertIsNone(told([3, 1, 2], [], "stopped"))
        self.assertEqual(told([3, 1, 2], [START, [2, "move"]], "stopped"), "session 0 shows nothing of input 0, which is right")
        self.assertEqual(told([3, "undo", 2], [START, [1, "move"], [2, "move"]], "stopped"), "session 0 shows 'move' at input 1, which is undo")

    def test_a_session_that_was_refused_shows_nothing(self) -> None:
        self.assertIsNone(told([3], [], "refused"))
        self.assertEqual(told([3], [START], "refused"), "session 0 was refused and has frames")

    def test_it_is_closed_as_its_last_level_says(self) -> None:
        self.assertIsNone(told([3], [START, [1, "move"]]))
        self.assertEqual(told([3], [START, [1, "move"]], last=OTHER), "session 0 is closed as passed, and its last level says otherwise")
        self.assertEqual(told([3], [START, [1, "move"]], "differs"), "session 0 is closed as differs, and its last level says otherwise")

    def test_no_session_passed_whose_last_level_is_none(self) -> None:
        for last in ("garbage", LEVEL + "x", "a,b:0,"):
            self.assertEqual(told([3], [START, [1, "move"]], last=last), "session 0 is closed as passed, and its last level is no level text")
            self.assertIsNone(told([3], [START, [1, "move"]], "differs", last=last))

    def test_lines_of_another_engine_may_show_anything(self) -> None:
        self.assertIsNone(told([3, 1], [START], tests=OF_ANY_ENGINE))
        self.assertIsNone(told([3, 1], [START], tests=NAMES_ALONE))
        self.assertEqual(told([3], [START, [2, "move"]], tests=NAMES_ALONE), "session 0 takes more inputs than its 1")


class Verbs(OnSessions):
    def test_lines_of_a_recording_before_it_was_changed_are_not_believed(self) -> None:
        """The recording got more inputs, or others, and its recorded level stayed: the old lines end with it."""
        changes: List[Tuple[Callable[[List[Any]], List[Any]], str]] = [(lambda inputs: [*inputs, 0, 1], "shows nothing of input"), (lambda inputs: ["undo", *inputs[1:]], "shows 'move' at input 0, which is undo")]
        for change, wanted in changes:
            entries = json.loads(EXAMPLE.read_text(encoding="utf-8"))
            entries[0][1][1] = change(entries[0][1][1])
            sessions = self.write("changed.json", json.dumps(entries))
            for verb in ("explain", "junit", "report", "accept"):
                with self.subTest(f"{verb}: {wanted}"):
                    self.assert_refused(run(verb, sessions, self.lines), wanted)

    def test_what_must_be_solved_is_among_what_is_played(self) -> None:
        self.assert_refused(run("test", EXAMPLE, "--filter", "half*", "--solved", "both*"), "--solved fits no session (both*)")

    def test_where_nothing_looks_whether_sessions_are_solved_that_is_said(self) -> None:
        entries = json.loads(EXAMPLE.read_text(encoding="utf-8"))
        sessions = self.write("demands.json", json.dumps([[*entries[0], "solved"], *entries[1:]]))
        program = self.write("program", f"#!/bin/sh\ncat {self.lines}\nexit 1\n")
        program.chmod(0o755)
        escaped = self.write("escaped.json", json.dumps([[*entries[0], "solved"], *entries[1:]]).replace('"solved"', '"\\u0073olved"'))
        for words in (("lines", sessions, "--program", program), ("lines", escaped, "--program", program)):
            with self.subTest(words[0]):
                self.assertEqual(run(*words).errors, f"{words[0]}: 1 session must be solved, which lines don't tell: saxtegun test looks whether it is\n")
        self.assertEqual(run("split", sessions, 1, self.room / "parts").errors, "")
        (self.room / "parts" / "00000000.lines").write_bytes(self.lines.read_bytes())
        joined = run("join", self.room / "parts")
        self.assertEqual((joined.status, joined.errors), (1, "join: 1 session must be solved, which lines don't tell: saxtegun test looks whether it is\n"))
        self.assertEqual(run("explain", EXAMPLE, self.lines).errors, "")
        stale = self.write("stale.json", json.dumps([*entries[:4], [*entries[4], "solved"]]))
        self.assertIn("\naccept: 1 session must be solved, which lines don't tell: saxtegun test looks whether it is\n", run("accept", stale, self.lines).errors)

    def demanding(self, end: str) -> Tuple[Path, Path]:
        """The example, of which the first session must be solved, and a program that shows such an end of it with one more input."""
        entries = json.loads(EXAMPLE.read_text(encoding="utf-8"))
        lines = self.lines.read_text(encoding="utf-8").split("\n")
        close = next(at for at, it in enumerate(lines) if it.startswith('{"close"'))
        last, told = json.loads(lines[close - 1]), json.loads(lines[close])
        more = {**last, "at": last["at"] + 1, "frame": last["frame"] + 1, "kind": end}
        shown = [*lines[: close], *(json.dumps(it, separators=(",", ":")) for it in (more, {**told, "frames": told["frames"] + 1}))]
        self.write("longer.lines", "".join(f"{it}\n" for it in shown))
        program = self.write("program", f"#!/bin/sh\ncat {self.room}/longer.lines\n")
        program.chmod(0o755)
        return self.write("demands.json", json.dumps([[*entries[0], "solved"], *entries[1:]])), program

    def test_where_lines_are_told_with_their_sessions_these_are_held_to_what_they_demand(self) -> None:
        for end, is_solved in (("over", True), ("undo", False)):
            sessions, program = self.demanding(end)
            told = {verb: run(verb, sessions, self.lines, "--program", program) for verb in ("explain", "junit", "report")}
            for verb, answer in told.items():
                with self.subTest(verb, end=end):
                    self.assertEqual((answer.status, answer.errors), (0, ""))
                    self.assertEqual(is_solved, "no longer solved" not in answer.out)
            self.assertEqual(is_solved, "session 0, both levels solved: passed: no longer solved" not in told["explain"].out)
            self.assertEqual(is_solved, not told["explain"].out.endswith(", 1 no longer solved\n"))
            self.assertIn(f'failures="{1 if is_solved else 2}"', told["junit"].out)
            self.assertEqual(is_solved, '["both levels solved","failed",' not in told["report"].out)

    def test_what_a_session_demands_is_never_passed_over_where_nothing_plays(self) -> None:
        sessions, _ = self.demanding("undo")
        for verb in ("explain", "junit", "report"):
            self.assert_refused(run(verb, sessions, self.lines, "--program", self.room / "none"), "there is no program at")

    def test_lines_that_close_nothing_are_no_run(self) -> None:
        self.assert_refused(run("junit", self.write("none.lines", "")), "closes no session, so nothing was played")


if __name__ == "__main__":
    unittest.main()
