"""`saxtegun test`: on the example, of which is known by hand what passes and what is solved, and on games with one fault each."""
from __future__ import annotations

import hashlib
import json
import os
import re
import signal
import subprocess
import sys
import unittest
from pathlib import Path
from typing import Any, List, Union
from xml.etree import ElementTree

from day import EXAMPLE, OnSessions
from strangers import NAMES
from tool import TOP, environment, plays, run
from saxtegun.culprits import loops_told, repeated_in, outside_told, unknown_told
from saxtegun.failures import Failure, annotation, markdown, within
from saxtegun.file_watch import times_of
from saxtegun.levelsets import count_of_levels, entries_of_levels, first_level, still_in
from saxtegun.lines import Frame, Run
from saxtegun.sessions import sessions_in
from saxtegun.texts import same_text

# Of the example's sessions the first two play both levels to their end, the others stay within a level.
ENDS = ("passed, solved: both levels solved", "passed, solved: the second level alone", "passed, not solved: half way through the first", "passed, not solved: there and back again")
COUNTS = "5 sessions: 4 passed, 1 differs, 0 stopped, 0 refused; 2 solved, 0 solved in part, 3 not solved"
RULE = "[ > Player | Crate ] -> [ > Player | > Crate ]"


class OfAGame(OnSessions):
    """Tests where game.txt and recordings.json lie apart, as an author keeps them."""

    def setUp(self) -> None:
        super().setUp()
        self.entries = json.loads(EXAMPLE.read_text(encoding="utf-8"))
        self.source = self.entries[0][1][0]
        self.game = self.write("game.txt", self.source)
        for entry in self.entries:
            entry[1][0] = ""
        self.recordings = self.write_entries(self.entries)

    def write_entries(self, entries: List[Any], name: str = "recordings.json") -> Path:
        return self.write(name, json.dumps(entries))

    def with_rule(self, rule: str) -> Path:
        return self.write("game.txt", self.source.replace(RULE, rule))


@plays
class DayOfTests(OfAGame):
    def test_a_game_and_its_recordings_are_played_together(self) -> None:
        answer = run("test", self.game, self.recordings)
        self.assertEqual((answer.status, answer.errors), (1, ""))
        lines = answer.out.splitlines()
        self.assertEqual((tuple(lines[:4]), lines[-1]), (ENDS, COUNTS))
        self.assertTrue(lines[4].startswith("session 4, a recording that has gone stale: differs: 17 frames, 16 inputs; 5 of 42 cells"))
        self.assertEqual(run("test", EXAMPLE).out, answer.out)

    def test_a_file_that_passes_has_status_0(self) -> None:
        answer = run("test", self.game, self.write_entries(self.entries[:4]), "--quiet")
        self.assertEqual((answer.status, answer.out), (0, "4 sessions: 4 passed, 0 differ, 0 stopped, 0 refused; 2 solved, 0 solved in part, 2 not solved\n"))

    def test_what_must_be_solved_and_is_not_fails(self) -> None:
        for entry, words in ((["half way", self.entries[2][1], "solved"], ()), (["half way", self.entries[2][1]], ("--solved", "half*"))):
            answer = run("test", self.game, self.write_entries([entry]), *words)
            self.assertEqual(answer.status, 1)
            self.assertIn("session 0, half way: passed: no longer solved: not solved\n", answer.out)
        self.assertEqual(run("test", self.game, self.write_entries([[*self.entries[0], "solved"]])).status, 0)

    def test_what_must_be_solved_must_be_over_the_text_at_hand_too(self) -> None:
        game = self.write("game.txt", self.source.replace("All Target on Crate", "No Crate"))
        name, [_, inputs, level, *rest] = self.entries[1][0], self.entries[1][1]
        # the second level alone: with the other win line it ends as it did, and isn't won
        own = [name, [self.source, inputs, level, *rest]]
        for entry, words in (([*own, "solved"], ()), (own, ("--solved", "*"))):
            answer = run("test", game, self.write_entries([entry]), *words)
            self.assertEqual(answer.status, 1)
            self.assertIn(f"session 0, {name}: passed: over its own text, but over {game} no longer solved: not solved\n", answer.out)
        self.assertEqual(run("test", game, self.write_entries([own])).status, 0)

    def test_a_letter_that_only_python_takes_for_white_space_is_part_of_a_text(self) -> None:
        self.assertFalse(same_text(self.source, f"{self.source}\x1c\n"))
        self.assertTrue(same_text(self.source, self.source.replace("\n", "\r\n") + "\x85 \n"))

    def test_a_session_that_ends_in_the_second_level_is_solved_in_part(self) -> None:
        name, (source, inputs, level, index) = self.entries[0]
        second = [name, [source, inputs[:-1], level, index]]
        self.assertIn("1 solved in part", run("test", self.game, self.write_entries([second])).out)

    def test_a_session_that_ends_in_another_level_says_so(self) -> None:
        first = [self.entries[0][0], ["", [], self.entries[0][1][2]]]
        answer = run("test", self.game, self.write_entries([first]))
        self.assertIn("still in level 1, and the recorded level looks like level 2", answer.out)
        self.assertNotIn("column ", answer.out)

    def test_of_many_files_some_are_named(self) -> None:
        """A browser would lay out for minutes what a folder of a stranger's brings."""
        files = [self.write(f"{number}.json", "[]") for number in range(30)]
        page = self.room / "page.html"
        self.assertEqual(run("test", self.game, self.recordings, *files, "--report", page).status, 1)
        named = ", ".join(["recordings.json", *(f"{number}.json" for number in range(9))])
        self.assertIn(f'"file":"{named} and 21 more files"', page.read_text(encoding="utf-8"))

    def test_a_filter_picks_sessions_and_must_pick_some(self) -> None:
        answer = run("test", self.game, self.recordings, "--filter", "the second*", "--filter", "there*")
        self.assertEqual((answer.status, answer.out.splitlines()[:2]), (0, [ENDS[1], ENDS[3]]))
        self.assert_refused(run("test", self.game, self.recordings, "--filter", "level 9*"), "--filter fits no session (level 9*)")

    def test_what_a_filter_leaves_out_is_told_in_each_file(self) -> None:
        page, xml, text = (self.room / it for it in ("page.html", "junit.xml", "summary.md"))
        answer = run("test", self.game, self.recordings, "--filter", "the second*", "--filter", "there*", "--report", page, "--junit", xml, "--markdown", text)
        counts = "2 sessions: 2 passed, 0 differ, 0 stopped, 0 refused; 1 solved, 0 solved in part, 1 not solved; 3 left out by --filter"
        self.assertEqual((answer.status, answer.out.splitlines()[-1]), (0, counts))
        self.assertIn(f'"result":"{counts}"', page.read_text(encoding="utf-8"))
        content = hashlib.sha256(self.source.encode()).hexdigest()[:16]
        self.assertIn(f'"origin":["Game: game.txt (SHA-256 {content}).","Sessions: recordings.json (2 sessions; 3 left out by --filter)."', page.read_text(encoding="utf-8"))
        suite = ElementTree.parse(xml).getroot()[0]
        self.assertEqual((suite.get("tests"), suite.get("skipped"), [it.tag for it in suite]), ("2", "0", ["properties", "testcase", "testcase"]))
        self.assertEqual(suite[0][0].attrib, {"name": "left out by --filter", "value": "3 sessions"})
        self.assertEqual(text.read_text(encoding="utf-8"), f"**{counts.replace(':', '&#58;').replace('-', '&#45;')}**\n")
        # nor is anything of it where nothing is left out
        self.assertNotIn("left out", run("test", self.game, self.recordings, "--filter", "*", "--report", page, "--junit", xml).out + page.read_text(encoding="utf-8") + xml.read_text(encoding="utf-8"))

    def test_of_many_failures_some_are_reported(self) -> None:
        answer = run("test", self.game, self.write_entries(self.entries[4:] * 3), "--max-fail", 1)
        self.assertEqual((answer.out.count(": differs: "), answer.out.splitlines()[-2]), (1, "and 2 more failures"))

    def test_a_name_that_is_not_there_is_reported_with_the_nearest(self) -> None:
        self.with_rule("[ > Player | Create ] -> [ > Player | > Crate ]")
        answer = run("test", self.game, self.recordings, "--max-fail", 1)
        self.assertIn("has a name that is not there: `Create` (near: `crate`) (Unknown:", answer.out)
        self.assertIn(f"    {self.game}:{1 + self.source[: self.source.index(RULE)].count(chr(10))}: [ > Player | Create ]", answer.out)

    def test_one_fault_of_a_game_is_reported_once(self) -> None:
        self.with_rule("[ > Player | Create ] -> [ > Player | > Crate ]")
        answer = run("test", self.game, self.recordings)
        self.assertEqual((answer.status, answer.out.count("has a name that is not there")), (1, 1))
        self.assertIn("session 0, both levels solved and 4 more sessions: refused: ", answer.out)
        self.assertIn("5 sessions: 0 passed, 0 differ, 0 stopped, 5 refused", answer.out)

    def test_a_section_that_is_missing_is_named(self) -> None:
        self.write("game.txt", self.source.replace("LEGEND\n", "").replace("LEVELS\n", ""))
        self.assertIn("a section that must be there is missing: `LEGEND`, `LEVELS` (Section:0)", run("test", self.game, self.recordings).out)

    def test_a_keyword_outside_the_profile_is_reported(self) -> None:
        self.with_rule("random [ > Player | Crate ] -> [ > Player | > Crate ]")
        self.assertIn("; here it is `random` (OutsideProfile:", run("test", self.game, self.recordings).out)

    def test_a_loop_is_reported_with_the_input_that_hung(self) -> None:
        self.with_rule(f"startloop\n{RULE}\n[ > Player ] -> [ < Player ]\n[ < Player ] -> [ > Player ]\nendloop")
        number = 1 + self.source[: self.source.index(RULE)].count("\n")
        answer = run("test", self.game, self.write_entries(self.entries[:1]))
        self.assertIn(f" at input 0 ({('up', 'left', 'down', 'right')[self.entries[0][1][1][0]]}); it is the rule on line {number + 2}", answer.out)

    def test_files_for_a_ci_are_written(self) -> None:
        junit, page, summary = (self.room / name for name in ("junit.xml", "report.html", "summary.md"))
        answer = run("test", self.game, self.recordings, "--junit", junit, "--report", page, "--markdown", summary, "--github", "--solved", "half*")
        self.assertEqual(answer.status, 1)
        suite = ElementTree.fromstring(junit.read_text(encoding="utf-8"))[0]
        self.assertEqual((suite.get("tests"), suite.get("failures"), suite[2][0].get("message")), ("5", "2", "no longer solved: not solved"))
        self.assertIn("Replay report", page.read_text(encoding="utf-8"))
        self.assertIn("```text\n", summary.read_text(encoding="utf-8"))
        self.assertEqual(sum(line.startswith("::error file=") for line in answer.out.splitlines()), 2)

    def test_several_files_are_told_apart(self) -> None:
        other = self.write_entries(self.entries[4:], "other.json")
        answer = run("test", self.game, self.recordings, other, "--quiet")
        self.assertIn(f"{other}: session 0, a recording that has gone stale", answer.out)
        self.assertIn("6 sessions: 4 passed, 2 differ", answer.out)

    def test_what_can_not_be_played_is_refused_in_a_line(self) -> None:
        bad = self.write("bad.json", '[["the name", ["", [], "x"]]]')
        for words, what in (
            ((self.game,), "no sessions file is named"),
            ((self.game, self.write("none.json", "[]")), "none.json has no session, so nothing was played"),
            ((self.write("nothing.txt", " \n"), self.recordings), "nothing.txt is empty: it is to be a game's text"),
            ((self.game, self.recordings, "--markdown", self.room), "can't be written: it is a folder"),
            ((self.game, self.room / "nothing.json"), "can't be read"),
            ((self.game, bad), "bad.json was not played: the recorded level of session 0 (the name) is no level text: on line 1, letter 1 of it `x` is no piece of one (bad-level 0)"),
            ((self.game, self.recordings, "--junit", self.recordings), "is read: write to another file"),
            ((self.game, self.recordings, "--program", self.game), "there is no program at"),
            ((self.game, self.recordings, "--markdown", self.room / "no/where"), "can't be written"),
        ):
            with self.subTest(what):
                answer = run("test", *words)
                self.assertEqual((answer.status, answer.errors.count("\n")), (2, 1))
                self.assertIn(what, answer.errors)

    def test_a_full_device_and_a_closed_pipe_are_status_2(self) -> None:
        for command in ("> /dev/full", "| true; exit ${PIPESTATUS[0]}"):
            ran = subprocess.run(["bash", "-c", f'"$0" "$@" {command}', sys.executable, TOP / "saxtegun", "test", EXAMPLE], stderr=subprocess.PIPE, env=environment())
            self.assertNotIn(b"Traceback", ran.stderr)
            if "full" in command:
                self.assertEqual((ran.returncode, ran.stderr.count(b"\n")), (2, 1))

    def test_a_save_is_played_again(self) -> None:
        words: List[Union[str, Path]] = [sys.executable, TOP / "saxtegun", "test", self.game, self.write_entries(self.entries[:1]), "--watch", "--quiet"]
        with subprocess.Popen(words, stdout=subprocess.PIPE, stderr=subprocess.STDOUT, env=environment(), start_new_session=True) as ran:
            assert ran.stdout is not None
            try:
                for wanted in (b"1 passed", b"1 differs"):
                    said = b""
                    while b"waiting for a save" not in said:
                        line = ran.stdout.readline()
                        self.assertTrue(line, said)
                        said += line
                    self.assertIn(wanted, said)
                    self.with_rule("")
                os.kill(ran.pid, signal.SIGINT)
                ran.stdout.read()
                self.assertEqual(ran.wait(timeout=20), 1)
            finally:
                ran.kill()


class Saves(OnSessions):
    def test_another_file_of_the_same_size_and_time_is_a_save(self) -> None:
        file, other = self.write("game.txt", "one"), self.write("other.txt", "two")
        before, times = times_of([str(file)]), os.stat(file)
        self.assertEqual(times_of([str(file)]), before)
        os.utime(other, ns=(times.st_atime_ns, times.st_mtime_ns))
        os.replace(other, file)
        self.assertNotEqual(times_of([str(file)]), before)
        before = times_of([str(file)])
        file.write_text("six", encoding="utf-8")
        os.utime(file, ns=(times.st_atime_ns, times.st_mtime_ns))
        self.assertNotEqual(times_of([str(file)]), before)


class Words(OfAGame):
    def test_the_names_near_a_name_are_reported(self) -> None:
        source = self.source.replace(RULE, "[ > Player | Create ] -> [ zzz | > Crate ]")
        number = 1 + source[: source.index("[ > Player | Create")].count("\n")
        self.assertEqual(unknown_told(source, number), ": `Create` (near: `crate`), `zzz`")
        self.assertEqual(unknown_told(source, 10_000), "")

    def test_keywords_and_rows_outside_the_profile_are_reported(self) -> None:
        for rule, told in (("late RIGID [ a ] -> [ ]", "`rigid`"), ("[ a | ... | b | ... | c ] -> [ ]", "a row with two `...`"), ("[ randomize ] -> [ ]", "")):
            self.assertEqual(outside_told(f"RULES\n{rule}", 2), told)

    def test_loops_and_groups_are_reported_by_their_lines(self) -> None:
        source = "RULES\n[ a ] -> [ b ]\n+ [ b ] -> [ a ]\nstartloop\n[ a ] -> [ b ]\nendloop\n[ c ] -> [ ]\n+ [ d ] -> [ ]\n+ [ e ] -> [ ]\n"
        told = ["the group of lines 2 to 3", "the rule on line 5", "the loop of lines 4 to 6", "the group of lines 7 to 9"]
        self.assertEqual([str(it) for it in repeated_in(source)], told)
        self.assertEqual(loops_told(source), f"; it may be {told[0]}, {told[2]}, {told[3]}, or a rule by itself")

    def test_what_alone_is_repeated_is_surely_meant(self) -> None:
        self.assertEqual(loops_told("RULES\n[ a ] -> [ b ]\n+ [ b ] -> [ a ]\nLEVELS\n"), "; it is the group of lines 2 to 3")
        self.assertEqual(loops_told("RULES\n[ a ] -> [ b ]\n"), "; it is the rule on line 2")
        self.assertEqual(loops_told("RULES\n[ a ] -> [ b ]\n[ b ] -> [ a ]\n"), "")

    def test_levels_are_counted_without_messages(self) -> None:
        source = "LEVELS\n\nmessage one\n\n##\n#.\n\n\n..\nmessage two\n..\n"
        self.assertEqual([it.rows for it in entries_of_levels(source)], [(), ("##", "#."), ("..",), (), ("..",)])
        self.assertEqual(count_of_levels(source), 3)
        entry = sessions_in("x", json.dumps([["a", [source, [], "", 3]]])).entries[0]
        self.assertEqual(first_level(entry), 3)

    def test_another_level_is_surely_meant_where_no_other_has_its_size(self) -> None:
        for levels, told in (("#p.\n\n#p..\n", "is"), ("#p.\n\n##p\n", "looks like")):
            source = "OBJECTS\nBackground .\na\nWall #\na\nPlayer p\na\nLEGEND\nCOLLISIONLAYERS\nBackground\nPlayer, Wall\nLEVELS\n" + levels
            recorded = "background wall:0,0,background player:1," if told != "is" else "background wall:0,background player:1,background:2,2,"
            [entry] = sessions_in("x", json.dumps([["a", [source, [], recorded]]])).entries
            run_of_it = Run(0, "a", "differs", None, [Frame(0, "start", "background wall:0,background player:1,background:2,")])
            self.assertEqual(still_in(entry, run_of_it, "rows"), f"still in level 1, and the recorded level {told} level 2")

    def test_an_annotation_is_one_command(self) -> None:
        told = annotation(Failure("a,b:c\n::error::", "differs", "50%\r\n::x", ["::error::y"], "g:1,a", 7))
        self.assertEqual(told.count("\n"), 0)
        self.assertTrue(told.startswith("::error file=g%3A1%2Ca,line=7,title=a%2Cb%3Ac"))

    def test_a_summary_is_no_longer_than_github_shows(self) -> None:
        """Each failure has some of its lines, and one that says how many are left out; so it is where a fence is long."""
        for line in ("x" * 200, "`" * 30_000, "\u202e" * 5_000, "::" * 20_000, "y" * 3_000_000):
            with self.subTest(line[:2]):
                failures = [Failure(f"n{it}" + "|" * 300, "differs", "*" * 300, [line] * 2_000, "", 1) for it in range(30)]
                text = markdown(failures, "30 sessions")
                self.assertLess(len(text.encode()), 2**20)
                self.assertEqual(len(re.findall(r"(?m)^and [0-9]+ more lines: it is cut here, since GitHub shows no summary of more than 1 MiB$", text)), 20)
        self.assertEqual(within(["some", "lines"], 11), ["some", "lines"])

    def test_a_summary_holds_no_markup_of_a_game(self) -> None:
        failures = [Failure(name, "differs", name, ["````", name], "", 1) for name in NAMES * 4]
        text = markdown(failures, "24 sessions")
        self.assertNotIn("<script", text.replace("\n", " ").split("`````")[0])
        self.assertEqual((text.count("\n| "), "And 4 more failures." in text), (21, True))
        self.assertIn("`````text\n````\n", text)


if __name__ == "__main__":
    unittest.main()
