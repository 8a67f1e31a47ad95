"""`saxtegun compare --engines` and `saxtegun shrink` with an engine that crashes, hangs, or writes a line of its own: each is told, with the session and the input."""
from __future__ import annotations

import contextlib
import hashlib
import io
import json
import sys
import tempfile
import unittest
import unittest.mock
from pathlib import Path
from typing import Any, Dict, List, Optional, Tuple

from day import OnSessions
from test_why import GAME as YARD, LINE, PUSH
from tool import Answer, run
from saxtegun import command_line
from saxtegun.budget import NOT_LOOKED_AT, Budget
from saxtegun.cases import read_case
from saxtegun.commands import Refused
from saxtegun.engines import Ended, Reader, answers
from saxtegun.lines import Run, runs_in
from saxtegun.playing import Engine
from saxtegun.sessions import Entry

SOURCE = """OBJECTS
Background .
green
Player p
white
Wall #
brown
Crate c
red
LEGEND
COLLISIONLAYERS
Background
Player, Wall, Crate
RULES
[ > Player | Crate ] -> [ > Player | > Crate ]
LEVELS
#####
#p..#
#####
"""
# What is left of the source where the player's steps alone matter: of its level two cells, between which the player walks.
STEPS_ALONE = ["OBJECTS", "Background .", "green", "Player p", "white", "LEGEND", "COLLISIONLAYERS", "Background", "Player", "LEVELS"]
START: Dict[str, Any] = {"at": 0, "frame": 0, "kind": "start", "level": "a:0,\n", "session": 0}
CLOSE: Dict[str, Any] = {"close": "differs", "frames": 1, "name": "a", "session": 0}


# Of a session whose press moved nothing: the one more input is an undo, which meets nothing there.
UNKNOWN_END = "; of 1 of the same it isn't known whether play is over in both, since with one more input not all were played by "


class OnEngines(OnSessions):
    def engine(self, kind: str, holds_back: bool = False) -> Path:
        tests = Path(__file__).resolve().parent
        path = self.write(f"{kind}-{holds_back}".lower(), f"#!/usr/bin/env python3\nimport sys\nsys.dont_write_bytecode = True\nsys.path.insert(0, {str(tests)!r})\nfrom wrong_engines import main\nmain({kind!r}, {holds_back})\n")
        path.chmod(0o755)
        return path

    def sessions(self, *inputs: List[Any], source: str = SOURCE) -> Path:
        return self.write("sessions.json", json.dumps([[f"session of {len(it)}", [source, it, "", 0]] for it in inputs]))


class Strays(OnEngines):
    def test_of_an_engine_in_a_loop_no_more_is_read_than_tells_that(self) -> None:
        """What it writes beside its lines would take longer to read than it took to write."""
        loop = self.write("loop", "#!/bin/sh\nyes '{' | head -n 300000\nexit 0\n")
        loop.chmod(0o755)
        entries = [Entry(number, "a", "", [], "", 0, {}, False) for number in range(3)]
        with unittest.mock.patch.object(Reader, "read", autospec=True, side_effect=Reader.read) as read:
            runs = list(answers(entries, Engine(program=str(loop), seconds=60.0)))
        self.assertEqual([(it.number, it.close, it.cause) for it in runs], [(number, "stray", "{") for number in range(3)])
        self.assertLess(read.call_count, 20_000)


class Frames(unittest.TestCase):
    """Which frame may follow which: a frame that no session shows is a line of the engine's own."""

    def stray(self, *kinds: Tuple[str, int]) -> Optional[int]:
        """The line at which a reader takes a session's frames, (kind, at), for none; None where it takes all."""
        reader = Reader([Entry(0, "a", "", [0, 0, 0], "", 0, {}, False)])
        for number, (kind, at) in enumerate(kinds):
            reader.take(json.dumps({"at": at, "frame": number, "kind": kind, "level": "a:0,\n", "session": 0}) + "\n")
            if reader.stray:
                return number
        return None

    def test_what_sessions_show_is_taken(self) -> None:
        for kinds in (
            [("start", 0), ("tick", 0), ("load", 0), ("move", 1), ("undo", 2), ("restart", 3), ("tick", 3)],
            [("start", 0), ("move", 1), ("over", 2), ("over", 3)], [("start", 0), ("tick", 0), ("over", 1)], [("start", 0), ("move", 1), ("move", 3)],
        ):
            self.assertIsNone(self.stray(*kinds), kinds)

    def test_what_no_session_shows_is_none(self) -> None:
        """A session begins with its start, no input is taken back, and play is over only behind a won step, for good."""
        for kinds in (
            [("over", 0)], [("move", 0)], [("start", 1)], [("start", 0), ("start", 0)], [("start", 0), ("over", 1)], [("start", 0), ("move", 1), ("over", 1)], [("start", 0), ("undo", 1), ("over", 2)],
            [("start", 0), ("move", 2), ("move", 1)], [("start", 0), ("move", 1), ("over", 2), ("move", 3)],
        ):
            self.assertEqual(self.stray(*kinds), len(kinds) - 1, kinds)

    def test_lines_that_no_program_writes_are_refused(self) -> None:
        for kinds in ([("over", 0)], [("start", 0), ("over", 1)]):
            with tempfile.NamedTemporaryFile("w", encoding="utf-8") as file:
                for number, (kind, at) in enumerate(kinds):
                    file.write(json.dumps({"at": at, "frame": number, "kind": kind, "level": "a:0,\n", "session": 0}, separators=(",", ":")) + "\n")
                file.flush()
                with self.assertRaisesRegex(Refused, f"line {len(kinds)}: not frame {len(kinds) - 1} of session 0"):
                    list(runs_in(file.name))


class Compare(OnEngines):
    def test_an_engine_that_says_that_all_is_over_at_once_is_not_believed(self) -> None:
        self.sessions([3])
        other = self.write("over", "#!/bin/sh\necho '{\"at\":0,\"frame\":0,\"kind\":\"over\",\"level\":\"a:0,\",\"session\":0}'\necho '{\"close\":\"passed\",\"frames\":1,\"name\":\"session of 1\",\"session\":0}'\n")
        other.chmod(0o755)
        answer = run("compare", "--engines", other, other, self.room / "sessions.json")
        self.assertEqual(answer.status, 1)
        self.assertIn("one wrote a line before its first frame that is none of its session: ", answer.out)

    def saying(self, name: str, data: bytes) -> Path:
        """An engine that writes this."""
        self.write(f"{name}.lines", "").write_bytes(data)
        path = self.write(name, f"#!/bin/sh\ncat '{self.room}/{name}.lines'\n")
        path.chmod(0o755)
        return path

    def test_two_engines_that_played_nothing_are_not_the_same(self) -> None:
        sessions = self.sessions([3], [1, 3])
        lines = "".join(f'{{"close":"passed","frames":0,"name":"session of {it + 1}","session":{it}}}\n' for it in range(2)).encode()
        one, other = self.saying("one", lines), self.saying("other", lines)
        answer = run("compare", "--engines", one, other, sessions)
        self.assertEqual((answer.status, answer.out.splitlines()[-1]), (1, "2 sessions: 0 the same, 2 diverge"))
        self.assertIn("one wrote a line before its first frame that is none of its session: ", answer.out)
        old = self.write("old.txt", SOURCE)
        self.assert_refused(run("compare", "--sources", old, old, sessions, "--program", one), "no close of a session of 0 frames")
        path = self.room / "one.lines"
        self.assert_refused(run("compare", path, path), "no close of a session of 0 frames")

    def test_our_own_engine_is_told_where_it_is_one_that_was_named(self) -> None:
        sessions, ours = self.sessions([3]), self.engine("none")
        with unittest.mock.patch.dict("os.environ", {"SAXTEGUN_PROGRAM": str(ours)}):
            answer = run("compare", "--engines", "saxtegun", ours, sessions)
        digest = hashlib.sha256(ours.read_bytes()).hexdigest()[:16]
        self.assertEqual((answer.status, answer.errors), (0, f"compare: saxtegun is {ours}, which SAXTEGUN_PROGRAM names (SHA-256 {digest})\n"))
        self.assertEqual(self.compare(ours).errors, "")

    def test_levels_that_are_not_utf_8_are_not_the_same(self) -> None:
        sessions = self.sessions([3])
        text = '{"at":0,"frame":0,"kind":"start","level":"caf%s:0,","session":0}\n{"close":"differs","frames":1,"name":"session of 1","session":0}\n'
        one, other = (self.saying(name, (text % letter).encode("latin-1")) for name, letter in (("one", "\xe8"), ("other", "\xe9")))
        answer = run("compare", "--engines", one, other, sessions)
        self.assertEqual((answer.status, answer.out.splitlines()[-1]), (1, "1 session: 0 the same, 1 diverges"))
        self.assertIn("one wrote a line before its first frame that is none of its session: ", answer.out)

    def compare(self, other: object, *words: object) -> Answer:
        return run("compare", "--engines", self.engine("none"), other, self.room / "sessions.json", *words)

    def test_a_crash_is_told_and_the_other_sessions_are_played(self) -> None:
        self.sessions([3], [3, "undo", 3, 1, "undo", "undo", "undo", 4], [1], ["undo"])
        for holds_back in (False, True):
            answer = self.compare(self.engine("crash", holds_back))
            # three steps are taken back by three, so the fourth undo, which is input 6, meets nothing; of the last session no input is taken
            name = f"crash-{holds_back}".lower()
            self.assertEqual(answer.out.splitlines(), [
                f"session 1, session of 8: {name} crashed after input 5 (undo): ended with status 1 before the session was closed: ValueError: no level at 6",
                f"session 3, session of 1: {name} crashed after the start: ended with status 1 before the session was closed: ValueError: no level at 0",
                f"4 sessions: 2 the same, 2 diverge{UNKNOWN_END}{name}",
            ])
            self.assertEqual((answer.status, answer.errors), (1, ""))

    def test_a_hang_is_told_and_the_other_sessions_are_played(self) -> None:
        self.sessions([3], [3, 1, "undo", "undo", "undo"], [1])
        answer = self.compare(self.engine("hang"), "--timeout", "5")
        self.assertEqual((answer.status, answer.out), (1, "session 1, session of 5: hang-false has no answer after input 3 (undo): not answered in 5 s\n" f"3 sessions: 2 the same, 1 diverges{UNKNOWN_END}hang-false\n"))

    def test_where_an_engine_hangs_late_is_looked_for_no_longer_than_may_be_explained(self) -> None:
        """Each look takes all the time of a session, so what is left of the whole is what the last of them has."""
        self.sessions(*([[3, 1, "undo", "undo", "undo", *([3, 1] * 100)]] * 3))
        shown, budget = io.StringIO(), Budget(7.5)
        words = ["saxtegun", "compare", "--engines", str(self.engine("none")), str(self.engine("hang", True)), str(self.room / "sessions.json"), "--timeout", "3"]
        with unittest.mock.patch("saxtegun.engines.EXPLAINING", budget), unittest.mock.patch("sys.argv", words), contextlib.redirect_stdout(shown):
            self.assertEqual(command_line.main(), 1)
        told = f"has no answer: not answered in 3 s; behind which input is {NOT_LOOKED_AT}"
        self.assertEqual([it.split(": hang-true ")[1] for it in shown.getvalue().splitlines()[:-1]], [told] * 3)

    def test_a_line_that_is_none_is_told_with_its_text(self) -> None:
        self.sessions([3], [3, "undo", "undo"], [1])
        answer = self.compare(self.engine("say"))
        self.assertEqual(answer.out.splitlines()[0], "session 1, session of 3: say-false wrote a line before its first frame that is none of its session: debug: nothing to take back, \\u{1b}[2J 2")
        self.assertEqual((answer.status, answer.out.splitlines()[1:]), (1, [f"3 sessions: 2 the same, 1 diverges{UNKNOWN_END}say-false"]))

    def test_what_parts_before_a_crash_is_told_first(self) -> None:
        self.sessions([3, 1, "undo", "restart", "undo", "undo", "undo"])
        answer = run("compare", "--engines", self.engine("crash"), self.engine("restart"), self.room / "sessions.json")
        self.assertIn("session 0, session of 7: frame 4, after input 3 (restart)\n", answer.out)
        self.assertIn("    crash-false crashed after input 5 (undo): ended with status 1", answer.out)

    def test_an_engine_that_always_fails_is_left_at_last(self) -> None:
        self.sessions(*([["undo"]] * 30))
        answer = self.compare(self.engine("crash"))
        self.assertEqual(answer.out.splitlines()[-1], "10 sessions: 0 the same, 10 diverge; 20 more not played, since an engine failed 10 times")

    def test_a_page_shows_what_was_shown_before(self) -> None:
        self.sessions([3, "undo", "undo"])
        self.assertEqual(self.compare(self.engine("crash"), "--report", self.room / "page.html").status, 1)
        self.assertIn("no more frames, and is crashed", (self.room / "page.html").read_text(encoding="utf-8"))

    def test_an_engine_that_can_not_be_run_is_refused(self) -> None:
        self.sessions([3])
        path = self.engine("crash")
        path.chmod(0o644)
        self.assert_refused(self.compare(path), f"{path} can't be run: it isn't executable (chmod +x)")
        self.assert_refused(self.compare(self.room / "none"), "there is no program at")


class Shrink(OnEngines):
    def shrink(self, other: object, *inputs: List[Any], source: str = SOURCE, seconds: str = "10") -> Tuple[str, List[str], Any]:
        self.sessions(*inputs, source=source)
        answer = run("shrink", self.engine("none"), other, self.room / "sessions.json", "*", self.room / "case.json", "--timeout", seconds)
        self.assertEqual((answer.status, answer.errors), (0, ""))
        [[_, [source, left, _, _]]] = json.loads(read_case(self.room / "case.json").input)
        return answer.out, [it for it in source.split("\n") if it], left

    def test_pairs_of_inputs_are_left_out(self) -> None:
        out, source, left = self.shrink(self.engine("restart"), [3], [3, 3, 1, 1, 3, "undo", "undo", "undo", "undo", "restart", 3, 1])
        # a press and its undo go together only; two presses that change the level, an undo and the restart are wanted
        self.assertEqual((left[2:], len(left), set(left[:2]) <= {1, 3}), (["undo", "restart"], 4, True))
        self.assertEqual((source[:-1], sorted(source[-1])[-2:]), (STEPS_ALONE, [".", "p"]))
        self.assertLessEqual(len(source[-1]), 3)
        self.assertIn("frame 4, after input 3 (restart)\n", out)

    def test_shrinking_ends_in_its_time(self) -> None:
        """What was found until then is the case, and it is said that there may be a smaller one."""
        self.sessions([3], [*[3, "undo"] * 20, "undo"])
        answer = run("shrink", self.engine("none"), self.engine("hang"), self.room / "sessions.json", "*", self.room / "case.json", "--timeout", "5", "--within", "0.5")
        self.assertEqual((answer.status, answer.errors), (0, "shrink: stopped behind 0.5 s; with a larger --within it may get smaller\n"))
        self.assertIn("not answered in 5 s\n", answer.out)
        [[_, [_, left, _, _]]] = json.loads(read_case(self.room / "case.json").input)
        self.assertIn("undo", left)

    def test_a_crash_shrinks(self) -> None:
        out, source, left = self.shrink(self.engine("crash", True), [3], [3, 1, "undo", 3, "undo", "undo", "undo", 3])
        self.assertEqual((left, source[:-1], len(source[-1])), (["undo"], STEPS_ALONE, 1))
        self.assertIn("crashed after the start: ended with status 1 before the session was closed: ValueError: no level at 0\n", out)
        # the case is what the other answers
        shown = [json.loads(it) for it in read_case(self.room / "case.json").stdout.splitlines()]
        self.assertEqual([it.get("kind") or it["close"] for it in shown], ["start", "undo", "passed"])

    def test_a_line_that_is_none_shrinks(self) -> None:
        out, _, left = self.shrink(self.engine("say"), [3], [3, 1, "undo", 3, "undo", "undo", "undo", 3])
        self.assertEqual(left, ["undo"])
        self.assertIn("is none of its session: debug: nothing to take back, \\u{1b}[2J 0\n", out)

    def test_a_hang_shrinks(self) -> None:
        out, _, left = self.shrink(self.engine("hang"), [3], [3, "undo", "undo"], source="\n".join([*STEPS_ALONE, "p."]), seconds="2")
        self.assertEqual(left, ["undo"])
        self.assertIn("has no answer after the start: not answered in 2 s\n", out)


class Stages(OnSessions):
    """Two engines over one game, of which the other pushes nothing, and what tells the stages of each."""

    CALLS = {
        "p": "import stand_in; stand_in.main(False)",
        "q": "import stand_in; stand_in.PUSH = 'none'; stand_in.main(False)",
        "s": "import stages_stand_in; stages_stand_in.tell_stages()",
        "t": "import stand_in, stages_stand_in; stand_in.PUSH = stages_stand_in.PUSH = 'none'; stages_stand_in.tell_stages()",
        "hangs": "import time; time.sleep(100)",
        "lies": "print('{}')",
    }

    def setUp(self) -> None:
        super().setUp()
        for name, call in self.CALLS.items():
            self.write(name, f"#!{sys.executable} -B\nimport sys\nsys.path.insert(0, {str(Path(__file__).resolve().parent)!r})\n{call}\n").chmod(0o755)
        source = YARD.replace("RULE", PUSH)
        self.sessions = self.write("r.json", json.dumps([["walk", [source, [1, 3, 3], ""]], ["stay", [source, [0], ""]]]))

    def compare(self, *tellers: str) -> Answer:
        return run("compare", "--engines", self.room / "p", self.room / "q", *(("--stages", *(self.room / it for it in tellers)) if tellers else ()), self.sessions)

    def test_the_stage_and_the_rule_at_which_they_part_are_named(self) -> None:
        answer = self.compare("s", "t")
        self.assertEqual((answer.status, answer.errors), (1, ""))
        lines = answer.out.splitlines()
        at = lines.index(f"    stages: input 2 (right), early rule on line {LINE}: acts in p, not in q")
        self.assertEqual(lines[at + 1], f"    in p, line {LINE}: {PUSH}")
        self.assertEqual(lines[:at], self.compare().out.splitlines()[:at])
        self.assertEqual(lines[-1], "2 sessions: 1 the same, 1 diverges")

    def test_what_tells_no_stages_leaves_the_frames_told(self) -> None:
        for teller, seconds, why in (("lies", 30.0, "line 1 of what the program of stages wrote is no stage of its input"), ("hangs", 1.0, "")):
            with self.subTest(teller), unittest.mock.patch("saxtegun.verbs.compare.SECONDS_OF_STAGES", seconds):
                answer = self.compare("s", teller)
                self.assertEqual((answer.status, answer.out.splitlines()[-1]), (1, "2 sessions: 1 the same, 1 diverges"))
                self.assertIn(f"    stages: {why}", answer.out)

    def test_tellers_are_asked_for_with_engines_and_must_be_there(self) -> None:
        self.assert_refused(run("compare", "--sources", self.sessions, self.sessions, "--stages", "s", "t", self.sessions), "--stages needs --engines")
        self.assert_refused(run("compare", "--engines", self.room / "p", self.room / "q", "--stages", self.room / "none", self.room / "t", self.sessions), "there is no program at")

    def test_shrinking_keeps_the_rule_at_which_they_part(self) -> None:
        file = self.room / "small.json"
        answer = run("shrink", self.room / "p", self.room / "q", self.sessions, "walk", file, "--stages", self.room / "s", self.room / "t")
        self.assertEqual(answer.status, 0, answer.errors)
        (_, (source, inputs, *_)), = json.loads(read_case(file).input)
        self.assertEqual((inputs, PUSH in source), ([3], True))


class Lines(unittest.TestCase):
    """What is read of lines, of one session or of two."""

    def read(self, *lines: Any, status: int = 0, count: int = 1) -> Tuple[List[Run], Any]:
        reader = Reader([Entry(it, "ab"[it], "", [1], "", 0, {}, False) for it in range(count)])
        for it in lines:
            reader.take(it if isinstance(it, str) else json.dumps(it) + "\n")
        return reader.runs, reader.end(Ended(status, ""), 10)

    def test_lines_that_are_none_are_faults_of_their_session(self) -> None:
        for line in ("debug\n", "[]\n", "\n", {**START, "session": 1}, {**START, "frame": 4}, {**START, "at": 2, "frame": 1}, {**CLOSE, "name": "b"}, {**CLOSE, "frames": 7}):
            [run], failed = self.read(START, line, CLOSE)
            self.assertEqual((run.close, run.cause, len(run.frames), failed), ("stray", line.strip() if isinstance(line, str) else json.dumps(line), 1, None))

    def test_a_close_without_a_frame_is_none_of_a_session_that_was_played(self) -> None:
        for close in ("passed", "differs"):
            line = {**CLOSE, "close": close, "frames": 0}
            runs, failed = self.read(line)
            self.assertEqual((runs, failed.close, failed.cause), ([], "stray", json.dumps(line)))
        [run], failed = self.read({**CLOSE, "close": "refused", "cause": "Missing:0", "frames": 0})
        self.assertEqual((run.close, failed), ("refused", None))

    def test_a_number_of_a_frame_that_is_none_is_a_fault(self) -> None:
        for number in (False, 0.0, "0", None):
            line = {**START, "frame": number}
            [run], _ = self.read(line, START, CLOSE)
            self.assertEqual((run.close, run.cause), ("stray", json.dumps(line)))

    def test_a_line_behind_the_last_close_is_a_fault_of_the_last_session(self) -> None:
        [run], failed = self.read(START, CLOSE, "bye\n")
        self.assertEqual((run.close, run.cause, failed), ("stray", "bye", None))

    def test_a_session_that_is_not_closed_is_a_crash(self) -> None:
        _, failed = self.read(START)
        self.assertEqual((failed.close, failed.cause, len(failed.frames)), ("crashed", "ended with status 0 before the session was closed", 1))
        runs, failed = self.read(START, CLOSE, status=-11, count=2)
        self.assertEqual((len(runs), failed.number, failed.cause), (1, 1, "ended by signal 11"))


if __name__ == "__main__":
    unittest.main()
