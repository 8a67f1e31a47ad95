"""`saxtegun lines` is the program itself, conformance/run says what is wrong with its words, and frames are read in two ways with one answer."""
from __future__ import annotations

import json
import random
import subprocess
import sys
import unittest
import unittest.mock
from pathlib import Path
from time import monotonic
from typing import Tuple

from day import EXAMPLE, OnSessions
from tool import PROGRAM, TOP, plays, run
from saxtegun.lines import READER, frame_of, written_frame
from saxtegun import command_line
from saxtegun.playing import Engine, Late, lines_within, refusal
from saxtegun.sessions import read_sessions, sessions_in

RUN = TOP / "conformance/run"


class Lines(OnSessions):
    def program(self, text: str) -> Path:
        path = self.write("program", f"#!/bin/sh\n{text}\n")
        path.chmod(0o755)
        return path

    def test_lines_and_status_are_those_of_the_program(self) -> None:
        program = self.program(f'[ "$*" = "--order rows --workers 3 {EXAMPLE}" ] || exit 7\ncat {self.lines}\nexit 1')
        answer = run("lines", EXAMPLE, "--order", "rows", "--workers", "3", "--program", program)
        self.assertEqual((answer.status, answer.out, answer.errors), (1, self.lines.read_text(encoding="utf-8"), ""))

    def test_standard_input_is_handed_on(self) -> None:
        came = self.room / "came"
        program = self.program(f'[ "$*" = "--order columns" ] || exit 7\ncat >{came}\ncat {self.lines}\nexit 1')
        for words in ((), ("-",)):
            answer = run("lines", *words, "--program", program, stdin=EXAMPLE.read_bytes())
            self.assertEqual((answer.status, answer.out, answer.errors), (1, self.lines.read_text(encoding="utf-8"), ""))
            self.assertEqual(came.read_bytes(), EXAMPLE.read_bytes())
            came.unlink()

    def test_a_failure_is_reported_with_its_file_and_entry(self) -> None:
        program = self.program('echo "bad-level 4" >&2\nexit 2')
        answer = run("lines", EXAMPLE, "--program", program)
        self.assert_refused(answer, "block-pushing.json was not played: the recorded level of session 4 (a recording that has gone stale) is no level text (bad-level 4)")
        self.assert_refused(run("lines", "--program", program, stdin=b"[]"), "standard input was not played: the recorded level of session 4 is no level text")
        # of sessions that are played alone the number is their own
        alone = sessions_in("s.json", '[["a",["x",[],"a:0,"]],["b",["x",[],"a:0,"]]]').entries[1:]
        self.assertEqual(refusal("bad-level 0", "s.json", alone), "s.json was not played: the recorded level of session 1 (b) is no level text (bad-level 1)")
        self.assert_refused(run("lines", EXAMPLE, "--program", self.program("kill -9 $$")), "was not played: nothing is told")

    def test_a_program_that_hangs_is_stopped_in_its_time(self) -> None:
        self.assert_refused(run("lines", EXAMPLE, "--program", self.program("exec sleep 1000"), "--timeout", "1"), "not answered in 1 s")

    def test_what_is_said_while_building_is_handed_on(self) -> None:
        answer = run("lines", EXAMPLE, "--program", self.program('echo "proving a; 1 left" >&2\necho "memory" >&2\nexit 2'))
        self.assertEqual(answer.errors.splitlines()[0], "proving a; 1 left")
        self.assertIn("there is not enough memory", answer.errors)

    def test_the_time_is_for_all_that_is_played_over_a_game(self) -> None:
        """Which may be more than the program takes at once."""
        sessions = self.write("s.json", json.dumps([[name, ["", [], "a:0,"]] for name in "abc"]))
        lines = '{"at":0,"frame":0,"kind":"start","level":"a:0,","session":0}', '{"close":"passed","frames":1,"name":"a","session":0}'
        program = self.program("sleep 0.7\n" + "".join(f"echo '{it}'\n" for it in lines))
        of, engine = read_sessions(str(sessions)), Engine(program=str(program), seconds=30)
        with unittest.mock.patch("saxtegun.playing.MOST_ENTRIES", 1):
            self.assertEqual(len([*lines_within(of.entries, of, engine)]), 6)
            with self.assertRaises(Late):
                list(lines_within(of.entries, of, engine._replace(end=monotonic() + 1.4)))
        program = self.program("exec sleep 1000")
        self.assert_refused(run("lines", sessions, "--game", self.write("game.txt", "title A\n"), "--program", program, "--timeout", "1"), "s.json was not played: not answered in 1 s")

    def test_what_is_written_for_people_is_guarded_whatever_a_file_is_called(self) -> None:
        for words, is_data in ((["why", "a.json", "--json"], True), (["why", "--", "--json"], False), (["lines", "--", "a.json"], True), (["test", "--json"], False)):
            with unittest.mock.patch("sys.argv", ["saxtegun", *words]), unittest.mock.patch("saxtegun.command_line.serve") as serve:
                command_line.call()
            self.assertEqual(serve.call_args[0][2], is_data, words)


class Frames(unittest.TestCase):
    LINE = '{"at":12,"frame":3,"kind":"move","level":"a \u00e9:0,0,\\n0,b:1,\\n","session":7}\n'

    def test_a_frame_as_the_program_writes_it_is_read_at_once(self) -> None:
        self.assertEqual(tuple(written_frame(self.LINE, 7, 3) or ()), (12, "move", "a \u00e9:0,0,\n0,b:1,\n"))
        self.assertIsNone(written_frame(self.LINE, 6, 3))
        self.assertIsNone(written_frame(self.LINE, 7, 4))

    def test_half_a_letter_is_left_to_json(self) -> None:
        self.assertIsNone(written_frame(self.LINE.replace("a \u00e9", "\\ud800"), 7, 3))

    def test_what_is_read_at_once_is_what_json_says(self) -> None:
        chance, at_once = random.Random(6), 0
        letters = '{}":,\\n0123456789aet\u00e9\u2028\t\r\n \x00\x7f'
        for _ in range(20_000):
            at = chance.randrange(len(self.LINE) + 1)
            text = self.LINE[:at] + chance.choice(letters) * chance.randrange(3) + self.LINE[at + chance.randrange(3) :]
            frame = written_frame(text, 7, 3)
            if frame is not None:
                at_once += 1
                line = json.loads(text)
                self.assertEqual((frame, line["session"], line["frame"]), (frame_of(READER.decode(text)), 7, 3), text)
        self.assertGreater(at_once, 1_000)


class WordsOfTheRunner(OnSessions):
    def answer(self, *words: object) -> Tuple[int, str, str]:
        ran = subprocess.run([RUN, *map(str, words)], stdout=subprocess.PIPE, stderr=subprocess.PIPE)
        return ran.returncode, ran.stdout.decode(), ran.stderr.decode()

    def test_help_is_printed(self) -> None:
        status, out, errors = self.answer("--help")
        self.assertEqual((status, errors), (0, ""))
        self.assertIn("conformance/run --both PROGRAM OTHER FILE..", out)

    def test_replay_answers_help_and_builds_nothing(self) -> None:
        ran = subprocess.run([TOP / "replay", "--help"], stdout=subprocess.PIPE, stderr=subprocess.PIPE)
        self.assertEqual((ran.returncode, ran.stderr), (0, b""))
        self.assertIn(b"./replay [--workers N] [--order rows|columns] [FILE]", ran.stdout)

    def test_wrong_words_are_refused_in_one_manner(self) -> None:
        missing = self.room / "missing.json"
        for words, what in {
            (): "a program is wanted",
            (missing,): f"there is no program at '{missing}'",
            ("--both", RUN): "another program is wanted",
            ("--both", RUN, missing): f"there is no program at '{missing}'",
            ("--both", RUN, RUN): "--both wants a sessions file, or several",
            ("--both", RUN, RUN, EXAMPLE, missing): f"there is no file at '{missing}' that can be read",
        }.items():
            self.assertEqual(self.answer(*words), (2, "", f"conformance/run: {what} (conformance/run --help says how to call it)\n"))


@plays
class DayOfLines(OnSessions):
    def test_the_example_is_played(self) -> None:
        answer = run("lines", EXAMPLE)
        self.assertEqual((answer.status, answer.out, answer.errors), (1, self.lines.read_text(encoding="utf-8"), ""))

    def test_a_file_that_is_not_there_is_named(self) -> None:
        self.assert_refused(run("lines", self.room / "none.json", "--program", PROGRAM), "none.json was not played: it can't be opened (open-fault)")


if __name__ == "__main__":
    unittest.main()
