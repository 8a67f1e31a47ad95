"""`saxtegun source` and `saxtegun accept`: an edited game under old recordings, and what it reaches as the new ones."""
from __future__ import annotations

import json
import os
import subprocess
import sys
import unittest
from pathlib import Path
from typing import List, Tuple

from day import EXAMPLE, OnSessions, lines_of_example
from tool import PROGRAM, TOP, plays, run
from saxtegun.sessions import chosen, sessions_in

PULLED = "[ < Player | Crate ] -> [ < Player | < Crate ]"
PUSHED = "[ > Player | Crate ] -> [ > Player | > Crate ]"
# Entries as a file may have them, with a seed and white space that no writer of JSON would give back.
ODD = '[ ["a\\u0041", [ "one" ,[0, "undo"],\t"",null, 1e300 ], {"x" : 1.0}],\n["b",["two",[],"x:0,",7]] ]\n'


class WithSource(OnSessions):
    def setUp(self) -> None:
        super().setUp()
        self.game = self.write("game.txt", 'title "B" \u00e4\r\n')

    def test_only_the_source_is_another(self) -> None:
        answer = run("source", self.game, self.write("odd.json", ODD), "--all")
        new = '"title \\"B\\" \u00e4\\r\\n"'
        self.assertEqual((answer.status, answer.out), (0, ODD.replace('"one"', new).replace('"two"', new)))
        self.assertIn("2 sessions got another source, of 2", answer.errors)
        self.assertIn("2 different sources", answer.errors)

    def test_with_only_names_the_others_stay(self) -> None:
        answer = run("source", self.game, self.write("odd.json", ODD), "--only", "b")
        self.assertEqual((answer.status, answer.out), (0, ODD.replace('"two"', '"title \\"B\\" \u00e4\\r\\n"')))

    def test_a_name_that_is_not_there_is_refused(self) -> None:
        self.assert_refused(run("source", self.game, self.write("odd.json", ODD), "--only", "b", "--only", "c"), "has no session named 'c'")

    def test_sessions_of_several_games_do_not_get_one_source(self) -> None:
        entries = [["one", ["title One\n", [], ""]], ["two", ["title Two\n", [], ""]]]
        sessions = self.write("games.json", json.dumps(entries))
        self.assert_refused(run("source", self.game, sessions), f"the sessions and {self.game} are of 3 games, by their titles")
        self.assertIn("2 sessions got another source", run("source", self.game, sessions, "--all").errors)

    def test_the_text_of_another_game_stays(self) -> None:
        """Its title is another, or it has none, so that nobody knows."""
        for text, why in (("title A wholly different game\n", "are of 2 games, by their titles"), ("OBJECTS\n", "a text that would go has no title"), ("title\nOBJECTS\n", "has no title"), ("title \u200b\n", "has no title")):
            sessions = self.write("games.json", json.dumps([["follows", ["", [], ""]], ["other", [text, [], ""]]]))
            before = sessions.read_bytes()
            for words in (("--follow",), ()):
                self.assert_refused(run("source", self.game, sessions, "--in-place", *words), why)
                self.assertEqual(sessions.read_bytes(), before)
            self.assertEqual(run("source", self.game, sessions, "--in-place", "--follow", "--only", "other").status, 0)
            self.assertNotEqual(sessions.read_bytes(), before)

    def test_a_game_may_have_the_title_that_one_without_is_told_by(self) -> None:
        game = self.write("titled.txt", "title a game\n")
        sessions = self.write("titled.json", json.dumps([["follows", ["title A game\nOBJECTS\n", [], ""]], ["other", ["title a game\nRULES\n", [], ""]]]))
        self.assert_refused(run("source", game, sessions, "--follow"), "are of 2 games, by their titles")
        sessions = self.write("titled.json", json.dumps([["other", ["title a game\nRULES\n", [], ""]]]))
        self.assertIn("1 session got another source", run("source", game, sessions, "--follow").errors)

    def test_titles_that_differ_far_behind_their_beginnings_are_of_two_games(self) -> None:
        long = "x" * 1000
        for one, other in ((f"{long} one", f"{long} two"), ("a" + " " * 9 + "b", "a\\u{20*9}b")):
            game = self.write("long.txt", f"title {one}\n")
            sessions = self.write("games.json", json.dumps([["other", [f"title {other}\n", [], ""]]]))
            self.assert_refused(run("source", game, sessions, "--in-place", "--follow"), "are of 2 games, by their titles")
            self.assertEqual(json.loads(sessions.read_text(encoding="utf-8"))[0][1][0], f"title {other}\n")

    def test_what_has_the_title_of_the_game_gets_its_text(self) -> None:
        sessions = self.write("games.json", json.dumps([["follows", ["", [], ""]], ["older", ['TITLE  "B" \u00e4\nOBJECTS\n', [], ""]]]))
        self.assertEqual(run("source", self.game, sessions, "--in-place", "--follow").status, 0)
        self.assertEqual([it[1][0] for it in json.loads(sessions.read_text(encoding="utf-8"))], ["", ""])

    def test_a_game_that_is_not_utf_8_is_refused_with_its_line(self) -> None:
        self.game.write_bytes(b"title A\nOBJECTS \xff\n")
        self.assert_refused(run("source", self.game, EXAMPLE), "game.txt, line 2: byte 8 of it is not UTF-8")


class Accept(OnSessions):
    def test_a_name_stands_for_its_session_alone(self) -> None:
        """Though it is a pattern that fits others."""
        sessions = sessions_in("s.json", json.dumps([[it, ["", [], ""]] for it in ("level [12]", "level 1", "level 2", "*")]))
        for patterns, numbers in ((["level [12]"], [0]), (["*"], [3]), (["level [1]"], [1]), (["level *"], [0, 1, 2]), (["level [12]", "level ?"], [0, 1, 2])):
            self.assertEqual([it.number for it in chosen(sessions, patterns)], numbers)

    def test_what_was_reached_is_recorded(self) -> None:
        answer = run("accept", EXAMPLE, self.lines)
        self.assertEqual(answer.status, 0)
        self.assertIn("session 4, a recording that has gone stale: differs, accepted\n", answer.errors)
        self.assertIn("1 of 5 recorded levels changed", answer.errors)
        old, new = json.loads(EXAMPLE.read_text(encoding="utf-8")), json.loads(answer.out)
        self.assertEqual(new[:4], old[:4])
        self.assertIn('"close":"passed"', lines_of_example(answer.out).splitlines()[-1])

    def test_a_session_that_was_not_played_to_its_end_is_left(self) -> None:
        sessions, lines = self.case("nine-sessions-with-workers-1")
        answer = run("accept", sessions, lines, "--order", "rows")
        old, new = json.loads(sessions.read_text(encoding="utf-8")), json.loads(answer.out)
        self.assertEqual(answer.status, 0)
        self.assertEqual([number for number in range(9) if old[number] != new[number]], [1])
        self.assertIn("session 4, a: stopped, not accepted: a group of rules", answer.errors)

    def test_a_named_session_that_can_not_be_accepted_gives_status_1(self) -> None:
        sessions, lines = self.case("the-word-random-in-a-rule")
        answer = run("accept", sessions, lines, "--only", "case")
        self.assertEqual((answer.status, answer.out), (1, sessions.read_text(encoding="utf-8")))
        self.assertIn("refused, not accepted", answer.errors)

    def test_with_only_names_the_others_stay(self) -> None:
        answer = run("accept", EXAMPLE, self.lines, "--only", "both levels solved")
        self.assertEqual((answer.status, answer.out), (0, EXAMPLE.read_text(encoding="utf-8")))

    def test_lines_of_other_recordings_are_refused(self) -> None:
        accepted = self.write("accepted.json", run("accept", EXAMPLE, self.lines).out)
        self.assert_refused(run("accept", accepted, self.lines), "session 4 is closed as differs, and its last level says otherwise")
        self.assert_refused(run("explain", accepted, self.lines), "session 4 is closed as differs, and its last level says otherwise")

    def test_in_place_the_file_is_replaced(self) -> None:
        sessions = self.write("sessions.json", EXAMPLE.read_text(encoding="utf-8"))
        answer = run("accept", sessions, self.lines, "--in-place", "--only", "a recording*")
        self.assertEqual((answer.status, answer.out), (0, ""))
        self.assertEqual(sessions.read_text(encoding="utf-8"), run("accept", EXAMPLE, self.lines).out)
        self.assertEqual(sorted(it.name for it in self.room.iterdir()), ["example.lines", "sessions.json"])

    def test_lines_of_the_other_order_are_not_accepted(self) -> None:
        sessions, lines = self.case("a-column-text-differs-with-order-rows")
        answer = run("accept", sessions, lines, "--order", "rows", "--only", "a")
        self.assert_refused(answer, "in the other order, not by rows: play it in the order that it was recorded in; nothing is accepted")

    def test_a_review_goes_on_behind_a_session_of_the_other_order(self) -> None:
        sessions, lines = self.case("a-column-text-differs-with-order-rows")
        answer = run("accept", sessions, lines, "--order", "rows", "--review")
        self.assertEqual(answer.status, 1)
        self.assertRegex(answer.errors, "not accepted: the recorded level is the reached one listed in the other order, not by rows: .*\n.*0 of [0-9]+ recorded levels? changed")

    def test_answers_that_can_not_be_written_are_told(self) -> None:
        stale = json.loads(EXAMPLE.read_text(encoding="utf-8"))[-1]
        sessions = self.write("stale.json", json.dumps([stale]))
        lines = self.write("stale.lines", lines_of_example(sessions.read_text(encoding="utf-8")))
        ran = subprocess.Popen([sys.executable, TOP / "saxtegun", "accept", sessions, lines, "--review", "--in-place"], stdin=subprocess.PIPE, stdout=subprocess.PIPE, stderr=subprocess.PIPE)
        assert ran.stderr is not None
        told = b""
        while b"accept it?" not in told:
            told += os.read(ran.stderr.fileno(), 1)
        sessions.write_text("[]", encoding="utf-8")
        _, errors = ran.communicate(b"y\n")
        self.assertEqual((ran.returncode, sessions.read_text(encoding="utf-8")), (2, "[]"))
        self.assertRegex(errors.decode(), "accept: not written: session 0, .*, accepted\n.*was changed since it was read")

    def test_a_file_without_a_name_is_refused(self) -> None:
        for words in (("solve", EXAMPLE, "--save", ""), ("test", EXAMPLE, "--junit="), ("test", EXAMPLE, "--report", ""), ("play", EXAMPLE, "--save", "name", "")):
            answer = run(*words)
            self.assertEqual((answer.status, answer.out), (2, ""))
            self.assertIn("the file has no name", answer.errors)

    def test_one_after_the_other_is_shown_and_asked(self) -> None:
        for answers, changed in (("y\n", 1), ("n\n", 0), ("\nwhat\na\n", 1), ("q\n", 0), ("", 0)):
            ran = subprocess.run([sys.executable, TOP / "saxtegun", "accept", EXAMPLE, self.lines, "--review"], input=answers.encode(), stdout=subprocess.PIPE, stderr=subprocess.PIPE)
            self.assertEqual(ran.returncode, 0)
            self.assertIn("    | reached    recorded\n", ran.stderr.decode())
            self.assertIn(f"{changed} of 5 recorded levels changed", ran.stderr.decode())

    def test_what_is_accepted_is_kept_where_standard_output_keeps_nothing(self) -> None:
        """Of the recordings of the example the last one alone differs."""
        calls: List[List[str]] = [[], ["--in-place"]]
        for words in calls:
            sessions = self.write("sessions.json", EXAMPLE.read_text(encoding="utf-8"))
            command = [sys.executable, str(TOP / "saxtegun"), "accept", str(sessions), str(self.lines), "--review", *words]
            ran = subprocess.run(command, input=b"y\n", stdout=subprocess.DEVNULL, stderr=subprocess.PIPE)
            self.assertEqual((ran.returncode, sessions.read_text(encoding="utf-8")), (0, run("accept", EXAMPLE, self.lines).out))

    def test_an_answer_that_is_no_text_is_asked_for_again(self) -> None:
        env = {**os.environ, "PYTHONIOENCODING": "utf-8:strict"}
        ran = subprocess.run([sys.executable, TOP / "saxtegun", "accept", EXAMPLE, self.lines, "--review"], input=b"\xff\ny\n", env=env, stdout=subprocess.PIPE, stderr=subprocess.PIPE)
        self.assertEqual((ran.returncode, ran.stderr.count(b"accept it?")), (0, 2))
        self.assertIn(b"1 of 5 recorded levels changed", ran.stderr)

    def test_a_level_that_can_not_be_read_back_is_not_accepted(self) -> None:
        sessions = self.write("sessions.json", '[["comma", ["", [], "a:0,"]]]')
        frame = '{"at":0,"frame":0,"kind":"start","level":"a,b:0,\\n","session":0}\n'
        lines = self.write("lines", frame + '{"close":"differs","frames":1,"name":"comma","session":0}\n')
        answer = run("accept", sessions, lines)
        # none is accepted, so this is no success
        self.assertEqual((answer.status, answer.out), (1, '[["comma", ["", [], "a:0,"]]]'))
        self.assertIn("holds a comma", answer.errors)

    def test_no_tool_writes_over_what_it_reads(self) -> None:
        sessions = self.write("sessions.json", EXAMPLE.read_text(encoding="utf-8"))
        for words in (["source", self.lines, sessions], *([verb, sessions, self.lines] for verb in ("accept", "explain", "report", "junit"))):
            with self.subTest(words[0]), open(sessions, "ab") as output:
                ran = subprocess.run([sys.executable, TOP / "saxtegun", *map(str, words)], stdout=output, stderr=subprocess.PIPE)
                self.assertEqual((ran.returncode, b"which is read" in ran.stderr), (2, True))
        self.assertEqual(sessions.read_bytes(), EXAMPLE.read_bytes())


@plays
class Day(OnSessions):
    """A rule is edited, a recording breaks, is looked at and accepted, and passes again."""

    def play(self, sessions: Path) -> Tuple[int, Path]:
        ran = subprocess.run([PROGRAM, sessions], stdout=subprocess.PIPE)
        return ran.returncode, self.write(f"{sessions.stem}.lines", ran.stdout.decode())

    def test_a_broken_recording_passes_again_once_it_is_accepted(self) -> None:
        self.assertEqual(self.play(EXAMPLE)[1].read_text(), self.lines.read_text())
        game = self.write("game.txt", json.loads(EXAMPLE.read_text(encoding="utf-8"))[0][1][0].replace(PUSHED, PULLED))
        edited = self.write("edited.json", run("source", game, EXAMPLE).out)
        status, lines = self.play(edited)
        self.assertEqual(status, 1)
        self.assertIn("session 0, both levels solved: differs", run("explain", edited, lines).out)
        accepted = self.write("accepted.json", run("accept", edited, lines).out)
        self.assertEqual(self.play(accepted)[0], 0)


if __name__ == "__main__":
    unittest.main()
