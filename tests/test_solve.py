"""`saxtegun solve`, `saxtegun mend` and `saxtegun test --solvable`, on the example's game, beside a search of these tests' own that knows only how crates are pushed."""
from __future__ import annotations

import json
import os
import shutil
import signal
import subprocess
import sys
import time
import unittest
from argparse import Namespace
from collections import deque
from pathlib import Path
from typing import Any, FrozenSet, List, Optional, Sequence, Tuple
from unittest import mock

from day import STEPS
from test_processes import hear_signals
from test_test import OfAGame
from tool import TOP, Answer, environment, plays, run
from saxtegun import mending, solving
from saxtegun.commands import Refused
from saxtegun.keeping import Kept
from saxtegun.lines import UNANSWERED, Run
from saxtegun.mending import Mender, Standing
from saxtegun.playing import Engine
from saxtegun.sessions import Entry, Sessions
from saxtegun.solvability import levels_not_won
from saxtegun.solving import Bounds, OutOfBounds, Solved, Unasked, Unsolvable, answer_in
from saxtegun.texts import GameText
from saxtegun.verbs import solve as solve_verb

WORDS = ("up", "left", "down", "right", "action")
# The example's levels are the first two of a published set, whose shortest solutions are known.
SHORTEST = (33, 16)
# In how few moves the first ten levels of Microban are known to be won. The seventh leads to nearly eight million levels of play, and is left out here.
MICROBAN, KNOWN, LARGE = TOP / "tests/microban.txt", (33, 16, 41, 23, 25, 107, 26, 97, 30, 89), 7
DEAD = "#####\n#*..#\n#P.O#\n#####\n"

Cell = Tuple[int, int]
# The walls, the targets, the crates and the player.
Level = Tuple[FrozenSet[Cell], FrozenSet[Cell], FrozenSet[Cell], Cell]


def read(drawing: str) -> Level:
    """A level of crates: its walls, its targets, its crates and its player."""
    at = {(x, y): letter for y, row in enumerate(drawing.strip("\n").split("\n")) for x, letter in enumerate(row)}
    places = {letters: frozenset(it for it, letter in at.items() if letter in letters) for letters in ("#", "O@", "*@", "P")}
    return places["#"], places["O@"], places["*@"], min(places["P"])


def pushed(level: Level, input: int) -> Level:
    """The level behind a press. One push of many, or none."""
    walls, targets, crates, (x, y) = level
    right, down = STEPS[input]
    to, beyond = (x + right, y + down), (x + 2 * right, y + 2 * down)
    if to in walls or (to in crates and beyond in walls | crates):
        return level
    return walls, targets, crates - {to} | {beyond} if to in crates else crates, to


def is_won(level: Level) -> bool:
    return level[1] <= level[2]


def shortest(level: Level) -> Optional[int]:
    """How many presses win at least; None where none do."""
    seen, left = {level}, deque([(level, 0)])
    while left:
        level, count = left.popleft()
        for input in STEPS:
            later = pushed(level, input)
            if is_won(later):
                return count + 1
            if later not in seen:
                seen.add(later)
                left.append((later, count + 1))
    return None


def behind(level: Level, inputs: Sequence[int]) -> Level:
    for it in inputs:
        level = pushed(level, it)
    return level


def wins_last(level: Level, inputs: Sequence[int]) -> bool:
    """Whether the last of these presses wins, and none before."""
    return [is_won(behind(level, inputs[: count + 1])) for count in range(len(inputs))] == [False] * (len(inputs) - 1) + [True]


def numbers_of(line: str) -> List[int]:
    return [WORDS.index(it) for it in line.split()]


class OfLevels(OfAGame):
    """The example's game, and its two levels as they are drawn."""

    def setUp(self) -> None:
        super().setUp()
        self.first, self.second = self.source.partition("LEVELS\n=======\n")[2].strip("\n").split("\n\n")

    def with_level(self, number: int, drawing: str) -> Path:
        """The game with another level in the place of one of its two."""
        levels = [self.first, self.second]
        levels[number] = drawing.strip("\n")
        head = self.source.partition("LEVELS\n=======\n")
        return self.write("game.txt", head[0] + head[1] + "\n" + "\n\n".join(levels) + "\n")


@plays
class DayOfSolving(OfLevels):
    def test_each_level_has_a_shortest_solution(self) -> None:
        answer = run("solve", self.game)
        lines = answer.out.splitlines()
        self.assertEqual((answer.status, len(lines), lines[-1]), (0, 5, "2 solved, 0 can't be won, 0 not known"))
        for place, (drawing, count) in enumerate(zip((self.first, self.second), SHORTEST)):
            self.assertEqual(lines[2 * place], f"level {place + 1}: solved in {count} presses, and in no fewer")
            inputs = numbers_of(lines[2 * place + 1])
            self.assertEqual((len(inputs), shortest(read(drawing))), (count, count))
            self.assertTrue(wins_last(read(drawing), inputs))

    def test_published_levels_are_won_in_as_few_moves_as_is_known(self) -> None:
        letters = str.maketrans({" ": ".", ".": "O", "$": "*", "*": "@", "@": "P"})
        drawings = [it.rstrip("\n").partition("\n")[2].split("\n") for it in MICROBAN.read_text(encoding="utf-8").split("; ")[2:]]
        self.assertEqual(len(drawings), len(KNOWN))
        for number, (rows, count) in enumerate(zip(drawings, KNOWN), 1):
            if number != LARGE:
                wide = max(map(len, rows))
                drawing = "\n".join(row.ljust(wide).translate(letters) for row in rows)
                answer = run("solve", self.with_level(0, drawing), "--level", "1")
                self.assertEqual(answer.out.splitlines()[0], f"level 1: solved in {count} presses, and in no fewer")
                self.assertTrue(wins_last(read(drawing), numbers_of(answer.out.splitlines()[1])), number)

    def test_solutions_are_saved_as_recordings_that_pass(self) -> None:
        saved = self.room / "solved.json"
        self.assertEqual(run("solve", self.game, "--save", saved).status, 0)
        entries = json.loads(saved.read_text(encoding="utf-8"))
        self.assertEqual([(name, body[0], len(body[1]), body[3], demands) for name, body, *demands in entries], [("level 1, solved in 33 presses", "", 33, 0, []), ("level 2, solved in 16 presses", "", 16, 1, ["solved"])])
        answer = run("test", self.game, saved)
        self.assertEqual((answer.status, answer.out.splitlines()[:2]), (0, ["passed, solved up to level 1: level 1, solved in 33 presses", "passed, solved: level 2, solved in 16 presses"]))
        again = run("solve", self.game, "--level", 2, "--save", saved)
        self.assertIn("solve: level 2, solved in 16 presses: it is in ", again.errors)
        self.assertEqual(json.loads(saved.read_text(encoding="utf-8")), entries)

    def test_a_solution_of_the_last_level_fails_that_no_longer_wins_it(self) -> None:
        """No frame shows the last win: without the demand it would pass."""
        saved = self.room / "solved.json"
        self.assertEqual(run("solve", self.game, "--level", 2, "--save", saved).status, 0)
        self.write("game.txt", self.source.replace("All Target on Crate", "No Target"))
        answer = run("test", self.game, saved)
        self.assertEqual((answer.status, "passed: no longer solved: not solved" in answer.out), (1, True))

    def test_a_level_that_can_not_be_won_and_one_of_which_nothing_is_known(self) -> None:
        self.assertIsNone(shortest(read(DEAD)))
        game = self.with_level(1, DEAD)
        answer = run("solve", game, "--level", "2")
        self.assertEqual((answer.status, answer.out), (1, "level 2: can't be won: no presses win it\n0 solved, 1 can't be won, 0 not known\n"))
        answer = run("solve", game, "--level", "all", "--levels", "10")
        self.assertEqual((answer.status, answer.out.splitlines()[-1]), (2, "0 solved, 1 can't be won, 1 not known"))
        self.assertRegex(answer.out, "^level 1: not known: no list of up to [0-9]+ press(es)? wins it, and longer ones lead to more than 10 levels of play, as many as are kept")

    def test_what_can_not_be_searched_is_refused(self) -> None:
        for words, said in (
            (("--level", "3"), "has 2 levels, but no level 3"),
            (("--level", "0"), "must be the number of a level"),
            (("--levels", "0"), "must be a number of levels from 1"),
            (("--save", self.room), "can't be"),
        ):
            answer = run("solve", self.game, *words)
            self.assertEqual((answer.status, answer.out), (2, ""), words)
            self.assertIn(said, answer.errors)
        answer = run("solve", self.write("game.txt", self.source.replace("[ > Player | Crate ] ->", "[ > Player | Crat ] ->")))
        self.assertEqual((answer.status, answer.out), (2, ""))
        self.assertIn("Unknown", answer.errors)

    def test_levels_of_a_suite_must_be_solvable(self) -> None:
        answer = run("test", self.game, self.write_entries(self.entries[:4]), "--solvable", "--quiet")
        self.assertEqual(answer.status, 0, answer.out)
        game = self.with_level(1, DEAD)
        halfway = self.write_entries(self.entries[2:4])
        self.assertEqual(run("test", game, halfway).status, 0)
        answer = run("test", game, halfway, "--solvable", "--quiet", "--github")
        self.assertEqual(answer.status, 1)
        self.assertIn(f"{game}: level 2: unsolvable: can't be won: no presses win it\n", answer.out)
        self.assertIn("; 1 level can't be won", answer.out)
        line = game.read_text(encoding="utf-8").split("\n").index("#*..#")
        self.assertIn(f",line={line},", answer.out)
        out = self.room / "out.xml"
        answer = run("test", game, halfway, "--solvable", "--levels", "10", "--quiet", "--junit", out, "--report", self.room / "page.html")
        self.assertEqual(answer.status, 2)
        self.assertIn("level 1: not known: no list of up to ", answer.out)
        self.assertIn("; 1 level can't be won; 1 level not known", answer.out)
        self.assertIn('tests="4" failures="1" errors="1"', out.read_text(encoding="utf-8"))
        self.assertRegex((self.room / "page.html").read_text(encoding="utf-8"), '"result":"2 sessions: 2 passed.*; 1 level can\'t be won; 1 level not known"')
        answer = run("test", self.write_entries(self.entries), "--solvable")
        self.assertEqual((answer.status, answer.out), (2, ""))


@plays
class DayOfMending(OfLevels):
    # With a wall where the player went, the second level's recordings end before it is won; with another one they push a crate where it is lost.
    WALLED = "######\n#....#\n#..P.#\n#.*@.#\n#.O@##\n#....#\n######"

    # A press up loses it.
    LOSING = "#####\n#...#\n#.*.#\n#OP.#\n#####"

    def commit(self) -> None:
        if shutil.which("git") is None:
            self.skipTest("git is not there: dev/tools installs it")
        for words in (["init", "--quiet"], ["add", "--all"], ["-c", "user.name=a", "-c", "user.email=a@example", "commit", "--quiet", "--message", "a text"]):
            subprocess.run(["git", "-C", self.room, *words], check=True, stdout=subprocess.DEVNULL)

    def told(self, answer: Answer, number: int) -> Tuple[str, List[int]]:
        """What is told of a session: how many inputs stay, and the presses that follow."""
        lines = answer.out.splitlines()
        place = next(at for at, it in enumerate(lines) if it.startswith(f"session {number}, "))
        return lines[place].partition(": mended: ")[2], numbers_of(lines[place + 1])

    def test_broken_recordings_are_mended_by_one_call(self) -> None:
        self.commit()
        game, before = self.with_level(1, self.WALLED), self.recordings.read_bytes()
        shown = run("mend", game, self.recordings)
        self.assertEqual(self.recordings.read_bytes(), before)
        self.assertIn("2 of 5 recordings mended, and not written: --in-place does", shown.out)
        answer = run("mend", game, self.recordings, "--in-place")
        self.assertEqual(answer.out.splitlines()[:-1], shown.out.splitlines()[:-1])
        entries = json.loads(self.recordings.read_text(encoding="utf-8"))
        self.assertEqual(entries[2:], self.entries[2:])
        for number, drawing, skipped in ((0, self.WALLED, SHORTEST[0]), (1, self.WALLED, 0)):
            old, new = self.entries[number][1][1], entries[number][1][1]
            said, presses = self.told(answer, number)
            kept = len(new) - len(presses)
            self.assertEqual((new[:kept], new[kept:]), (old[:kept], presses))
            self.assertTrue(wins_last(read(drawing), new[skipped:]))
            self.assertEqual(len(presses), shortest(behind(read(drawing), old[skipped:kept])))
            self.assertTrue(all(shortest(behind(read(drawing), old[skipped:more])) is None for more in range(kept + 1, len(old) + 1)))
        self.assertEqual(run("test", game, self.recordings, "--filter", "*level*", "--solved", "*level*").status, 0)

    def test_a_recording_that_passes_and_no_longer_wins_is_mended(self) -> None:
        """A crate is pushed onto the target; then the player must stand there, who has to push once more."""
        game, recordings = self.with_level(1, "######\n#P*O.#\n######"), self.room / "won.json"
        self.assertEqual(run("solve", game, "--level", 2, "--save", recordings).status, 0)
        (name, body, _), = json.loads(recordings.read_text(encoding="utf-8"))
        recordings.write_text(json.dumps([[name, body]]), encoding="utf-8")
        self.commit()
        self.write("game.txt", game.read_text(encoding="utf-8").replace("All Target on Crate", "All Target on Player"))
        answer = run("mend", game, recordings)
        self.assertEqual((answer.status, *self.told(answer, 0)), (0, "its one input stays, and 1 press follows", [3]))

    def test_the_longest_beginning_stays_from_which_the_level_can_be_won(self) -> None:
        """Behind presses that lose the level."""
        lost: List[int] = []
        inputs = self.entries[1][1][1]
        for count in range(len(inputs)):
            for press in STEPS:
                tried = [*inputs[:count], press, *inputs[count:]]
                if shortest(behind(read(self.second), tried)) is None and not any(is_won(behind(read(self.second), tried[:it])) for it in range(len(tried) + 1)):
                    lost = tried
        self.assertNotEqual(lost, [])
        kept = max(it for it in range(len(lost) + 1) if shortest(behind(read(self.second), lost[:it])) is not None)
        self.assertLess(kept, len(lost))
        entry = ["lost", ["", lost, self.entries[1][1][2], 1], "solved"]
        recordings = self.write_entries([entry])
        answer = run("mend", self.game, recordings, "--in-place")
        self.assertEqual(answer.status, 0, answer.out + answer.errors)
        said, presses = self.told(answer, 0)
        self.assertTrue(said.startswith(f"{kept} of its {len(lost)} inputs stay, and "), said)
        self.assertEqual(len(presses), shortest(behind(read(self.second), lost[:kept])))
        (name, (source, inputs, level, index), demand), = json.loads(recordings.read_text(encoding="utf-8"))
        self.assertEqual((name, source, inputs, index, demand), ("lost", "", [*lost[:kept], *presses], 1, "solved"))
        self.assertEqual(run("test", self.game, recordings).status, 0)

    def test_what_is_not_known_of_longer_beginnings_is_told(self) -> None:
        drawing = "\n".join(["##########", *["#........#"] * 2, "#.P*O....#", *["#........#"] * 3, "##########"])
        game, recordings = self.with_level(1, drawing), self.write_entries([["wanders", ["", [0, 3, 2, 2], "", 1], "solved"]])
        said, presses = self.told(run("mend", game, recordings), 0)
        self.assertEqual(said, f"all of its 4 inputs stay, and {shortest(behind(read(drawing), [0, 3, 2, 2]))} presses follow")
        for levels in (20, 60):
            said, presses = self.told(run("mend", game, recordings, "--levels", levels), 0)
            self.assertRegex(said, f"^[12] of its 4 inputs stays?, and {len(presses)} presses follow; whether the level can be won from a longer beginning isn't known: no list of up to [0-9]+ press")
            self.assertTrue(wins_last(read(drawing), [*[0, 3, 2, 2][: int(said[0])], *presses]))

    def test_what_one_input_and_one_press_do_is_told_so(self) -> None:
        game = self.with_level(1, "######\n#P.*O#\n######")
        recordings = self.write_entries([[name, ["", inputs, "", 1], "solved"] for name, inputs in (("one", [3]), ("none", []))])
        self.assertEqual([self.told(run("mend", game, recordings), it)[0] for it in (0, 1)], ["its one input stays, and 1 press follows", "it had no input, and 2 presses follow"])

    def test_what_was_taken_back_may_win_again(self) -> None:
        """A level is lost, and then the press is taken back: all inputs stay."""
        lost = behind(read(self.LOSING), [0])
        self.assertIsNone(shortest(lost))
        game = self.with_level(1, self.LOSING)
        recordings = self.write_entries([["back", ["", [0, "undo"], self.entries[1][1][2], 1], "solved"]])
        answer = run("mend", game, recordings, "--in-place")
        self.assertEqual(answer.status, 0, answer.out + answer.errors)
        said, presses = self.told(answer, 0)
        self.assertEqual(said, f"all of its 2 inputs stay, and {shortest(read(self.LOSING))} presses follow")
        self.assertTrue(wins_last(read(self.LOSING), presses))
        self.assertEqual(run("test", game, recordings).status, 0)

    def test_a_recording_that_is_to_win_no_level_is_mended_only_by_name(self) -> None:
        answer = run("mend", self.game, self.recordings, "--in-place")
        self.assertEqual((answer.status, json.loads(self.recordings.read_text(encoding="utf-8"))), (1, self.entries))
        self.assertIn("session 4, a recording that has gone stale: differs: not mended: whether it is to win a level isn't known: --only NAME has it mended", answer.out)
        answer = run("mend", self.game, self.recordings, "--only", "a recording*", "--in-place")
        self.assertEqual(answer.status, 0, answer.out)
        entries = json.loads(self.recordings.read_text(encoding="utf-8"))
        self.assertEqual(entries[:4], self.entries[:4])
        self.assertTrue(wins_last(read(self.first), entries[4][1][1]))
        self.assertEqual(run("test", self.game, self.recordings).status, 0)

    def test_what_can_not_be_mended_stays(self) -> None:
        self.commit()
        answer = run("mend", self.with_level(1, DEAD), self.recordings, "--in-place")
        self.assertEqual((answer.status, json.loads(self.recordings.read_text(encoding="utf-8"))), (1, self.entries))
        self.assertIn("session 1, the second level alone: differs: not mended: level 2, from its beginning, can't be won: no presses win it\n", answer.out)
        self.assertTrue(answer.out.endswith("0 of 5 recordings mended\n"))
        answer = run("mend", self.game, self.recordings, "--only", "no such")
        self.assertEqual((answer.status, answer.out), (2, ""))
        answer = run("mend", self.write("game.txt", self.source.replace("[ > Player | Crate ] ->", "[ > Player | Crat ] ->")), self.recordings)
        self.assertEqual((answer.status, answer.out), (2, ""))
        self.assertIn("is not played: ", answer.errors)
        beyond = self.write_entries([["beyond", ["", [], self.entries[1][1][2], 9], "solved"]])
        answer = run("mend", self.write("game.txt", self.source), beyond)
        self.assertEqual(answer.status, 1)
        self.assertIn("session 0, beyond: refused: not mended: it is not played: ", answer.out)


# Runs the command, in which the engine is asked for so many solutions; whoever asks for one more waits for a program that notes its number.
ASKED = """
import sys
sys.path.insert(0, sys.argv[1])
from saxtegun import solving
from saxtegun.command_line import call
asked, most, note, real = [], int(sys.argv[2]), sys.argv[3], solving.solver_words
def words():
    asked.append(1)
    return real() if len(asked) <= most else ["/bin/sh", "-c", f"echo $$ >'{note}'; exec sleep 1000"]
solving.solver_words = words
sys.argv = ["saxtegun", *sys.argv[4:]]
call()
"""


@plays
class DayOfSearchesThatAreLeft(OfLevels):
    """What is found before a search is ended is kept."""

    def command(self, most: int, *words: object, **streams: Any) -> subprocess.Popen[bytes]:
        folder = self.room / "temp"
        folder.mkdir(exist_ok=True)
        command = [sys.executable, "-B", "-c", ASKED, str(TOP / "python"), str(most), str(self.room / "number"), *map(str, words)]
        streams = {"stdout": subprocess.DEVNULL, "stderr": subprocess.PIPE, **streams}
        return subprocess.Popen(command, cwd=self.room, env={**environment(), "TMPDIR": str(folder)}, stdin=subprocess.DEVNULL, preexec_fn=hear_signals, **streams)

    SAID = b"mend: ended early, with 1 recording mended in "

    def end(self, ran: subprocess.Popen[bytes], number: int) -> bytes:
        """Ends the command as it waits for a solution; what it says."""
        for _ in range(6000):
            if (self.room / "number").exists() and (self.room / "number").read_text().strip():
                break
            self.assertIsNone(ran.poll())
            time.sleep(0.05)
        ran.send_signal(number)
        errors = ran.communicate(timeout=300)[1]
        self.assertEqual(ran.returncode, 2 if number == signal.SIGINT else -number, errors)
        self.assertNotIn(b"Traceback", errors)
        with self.assertRaises(ProcessLookupError):
            os.kill(int((self.room / "number").read_text()), 0)
        (self.room / "number").unlink()
        self.assertEqual([*(self.room / "temp").iterdir(), *self.room.glob(".saxtegun-*")], [])
        return errors

    def test_a_signal_lets_what_is_mended_be_written(self) -> None:
        game = self.with_level(1, DayOfMending.WALLED)
        for number in (signal.SIGTERM, signal.SIGHUP, signal.SIGINT):
            recordings = self.write_entries(self.entries)
            with self.subTest(number), self.command(1, "mend", game, recordings, "--only", "*level*", "--in-place") as ran:
                self.assertIn(self.SAID, self.end(ran, number))
                entries = json.loads(recordings.read_text(encoding="utf-8"))
                self.assertEqual(entries[1:], self.entries[1:])
                self.assertTrue(wins_last(read(DayOfMending.WALLED), entries[0][1][1][SHORTEST[0] :]))
                self.assertEqual(run("test", game, recordings, "--filter", "both*", "--solved", "both*").status, 0)

    def test_a_signal_leaves_what_is_saved(self) -> None:
        for number in (signal.SIGTERM, signal.SIGHUP, signal.SIGINT):
            saved = self.room / f"saved {int(number)}.json"
            with self.subTest(number), self.command(1, "solve", self.game, "--save", saved) as ran:
                self.end(ran, number)
                self.assertEqual([name for name, _ in json.loads(saved.read_text(encoding="utf-8"))], ["level 1, solved in 33 presses"])

    def test_what_is_found_is_kept_where_nobody_reads_of_it(self) -> None:
        saved, recordings = self.room / "saved.json", self.recordings
        game = self.with_level(1, DayOfMending.WALLED)
        for words in (("solve", self.game, "--level", 1, "--save", saved), ("mend", game, recordings, "--only", "*level*", "--in-place")):
            reads, writes = os.pipe()
            os.close(reads)
            with self.subTest(words[0]), self.command(9, *words, stdout=writes) as ran:
                os.close(writes)
                errors = ran.communicate(timeout=300)[1]
                self.assertEqual((ran.returncode, b"Traceback" in errors, self.SAID in errors), (2, False, words[0] == "mend"), errors)
        self.assertEqual([name for name, _ in json.loads(saved.read_text(encoding="utf-8"))], ["level 1, solved in 33 presses"])
        entries = json.loads(recordings.read_text(encoding="utf-8"))
        self.assertNotEqual(entries[0], self.entries[0])
        self.assertEqual(entries[1:], self.entries[1:])

    def test_what_is_read_is_not_written_to(self) -> None:
        for words, file in ((("solve", self.game), self.game), (("mend", self.game, self.recordings), self.recordings), (("solve", self.game, "--save", self.recordings), self.recordings)):
            before = file.read_bytes()
            with open(file, "ab") as output, self.subTest(words[0]), self.command(9, *words, stdout=output) as ran:
                errors = ran.communicate(timeout=300)[1]
                self.assertEqual((ran.returncode, file.read_bytes()), (2, before))
                self.assertIn(b"which is read", errors)

    def test_a_game_that_does_not_begin_takes_no_longer_than_there_is_time(self) -> None:
        program = self.write("program", "#!/bin/sh\nexec sleep 1000\n")
        program.chmod(0o755)
        for words in (("solve", self.game), ("mend", self.game, self.recordings, "--timeout", 1, "--only", "both*")):
            with self.subTest(words[0]):
                answer = run(*words, "--program", program, "--within", 1)
                self.assertEqual(answer.status, 2 if words[0] == "solve" else 1, answer.errors)
                self.assertIn("not known: the time is over (--within)" if words[0] == "solve" else "not mended: it is not played: not answered in 1 s", answer.out)


@plays
class DayOfKeysAndClocks(OfLevels):
    """Games that have a clock, or switch a key off."""

    # A press of the action wins, and nothing else does.
    ACTION = """title a key
OBJECTS
Background .
black
Player p
white
Goal g
red
LEGEND
COLLISIONLAYERS
Background
Player
Goal
RULES
[ action Player ] -> [ action Player Goal ]
WINCONDITIONS
Some Goal
LEVELS
p.
"""

    def ticking(self) -> Path:
        return self.write("game.txt", f"realtime_interval 1\n{self.source}")

    def test_a_game_with_a_clock_is_solved_by_its_ticks_as_recorded(self) -> None:
        game, saved = self.ticking(), self.room / "saved.json"
        answer = run("solve", game, "--level", 2)
        self.assertEqual((answer.status, answer.out), (2, ""))
        self.assertIn("is not played: ", answer.errors)
        answer = run("solve", game, "--level", 2, "--ticks-as-recorded", "--save", saved)
        self.assertEqual((answer.status, answer.out.splitlines()[0]), (0, f"level 2: solved in {SHORTEST[1]} presses, and in no fewer"))
        self.assertIn("played without realtime_interval: ticks as recorded", answer.errors)
        self.assertEqual(run("test", game, saved, "--solved", "*", "--ticks-as-recorded").status, 0)

    def test_a_game_with_a_clock_is_solvable_and_mended_by_its_ticks_as_recorded(self) -> None:
        game, recordings = self.ticking(), self.write_entries([["lost", ["", [], self.entries[1][1][2], 1], "solved"]])
        self.assertEqual(run("mend", game, recordings, "--in-place").status, 2)
        answer = run("test", game, recordings, "--solvable", "--quiet")
        self.assertEqual(answer.status, 2)
        self.assertIn("level 1: not known: the game is refused\n", answer.out)
        answer = run("mend", game, recordings, "--ticks-as-recorded", "--in-place")
        self.assertEqual(answer.status, 0, answer.out + answer.errors)
        answer = run("test", game, recordings, "--solvable", "--ticks-as-recorded", "--quiet")
        self.assertEqual((answer.status, answer.out.splitlines()[-1]), (0, "1 session: 1 passed, 0 differ, 0 stopped, 0 refused; 1 solved, 0 solved in part, 0 not solved; played without realtime_interval: ticks as recorded"))

    def test_a_key_that_is_switched_off_solves_nothing(self) -> None:
        recordings = self.write_entries([["none", ["", [], "", 0], "solved"]])
        self.assertEqual(run("solve", self.write("game.txt", self.ACTION)).out, "level 1: solved in 1 press, and in no fewer\n    action\n1 solved, 0 can't be won, 0 not known\n")
        game, saved = self.write("game.txt", f"noaction\n{self.ACTION}"), self.room / "saved.json"
        said = "not known: the fewest presses that win have one that the game switches off by `noaction`"
        answer = run("solve", game, "--save", saved)
        self.assertEqual((answer.status, answer.out, saved.exists()), (2, f"level 1: {said}\n0 solved, 0 can't be won, 1 not known\n", False))
        answer = run("mend", game, recordings, "--in-place")
        self.assertEqual((answer.status, json.loads(recordings.read_text(encoding="utf-8"))), (1, [["none", ["", [], "", 0], "solved"]]))
        self.assertIn(f"not mended: of level 1, from its beginning, it isn't known whether it can be won: {said.partition(': ')[2]}\n", answer.out)
        answer = run("test", game, recordings, "--solvable", "--quiet")
        self.assertEqual(answer.status, 2)
        self.assertIn(f"level 1: {said}\n", answer.out)
        # where the fewest presses have none such it counts for nothing
        self.assertEqual(run("solve", self.write("game.txt", f"noaction\n{self.source}"), "--level", 2).status, 0)

    def test_sessions_that_are_not_answered_leave_levels_that_are(self) -> None:
        """A program that hears of no session named slow."""
        program = self.write("program", f"#!/bin/sh\nfor it; do :; done\ngrep -q '\"slow\"' \"$it\" && exec sleep 1000\nexec '{environment()['SAXTEGUN_PROGRAM']}' \"$@\"\n")
        program.chmod(0o755)
        game, recordings = self.with_level(1, DEAD), self.write_entries([["slow", ["", [], "", 0], "solved"], *self.entries[2:3]])
        words = ["--program", program, "--timeout", 15]
        answer = run("test", game, recordings, "--solvable", *words)
        self.assertEqual(answer.status, 2, answer.errors)
        self.assertIn("session 0, slow: unanswered: not answered in 15 s\n", answer.out)
        self.assertIn("level 2: unsolvable: can't be won: no presses win it\n", answer.out)
        before = recordings.read_bytes()
        answer = run("mend", game, recordings, "--in-place", *words)
        self.assertEqual((answer.status, recordings.read_bytes()), (1, before))
        self.assertIn("session 0, slow: unanswered: not mended: it is not played: not answered in 15 s\n", answer.out)


@plays
class DayOfStarts(OfAGame):
    """Games whose rules run as a level loads, which may win it."""

    GAME = """title starts
run_rules_on_level_start
OBJECTS
Background .
black
Player p
white
Crate c
brown
Target o
blue
Wall #
grey
Mark m
pink
Ghost g
yellow
LEGEND
COLLISIONLAYERS
Background
Target
Player, Crate, Wall
Mark
Ghost
RULES
[ Mark ] -> [ Ghost ]
[ > Player | Crate ] -> [ > Player | > Crate ]
WINCONDITIONS
All Target on Crate
No Mark
LEVELS
"""
    AT_ONCE, LOST = "pm", "####\n#pc#\n#o.#\n####"

    def with_levels(self, *levels: str) -> Path:
        return self.write("game.txt", self.GAME + "\n\n".join(levels) + "\n")

    def test_a_level_that_is_won_as_it_loads_has_no_answer_of_another(self) -> None:
        at_once = "level 1: won as it loads, without a press\n"
        for levels, status, said in (
            ((self.AT_ONCE, self.LOST), 1, f"{at_once}level 2: can't be won: no presses win it\n1 solved, 1 can't be won, 0 not known\n"),
            ((self.AT_ONCE, "p.co."), 0, f"{at_once}level 2: solved in 2 presses, and in no fewer\n    right right\n2 solved, 0 can't be won, 0 not known\n"),
            ((self.AT_ONCE,), 0, f"{at_once}1 solved, 0 can't be won, 0 not known\n"),
        ):
            answer = run("solve", self.with_levels(*levels))
            self.assertEqual((answer.status, answer.out), (status, said))

    def test_it_is_saved_without_an_input_and_is_solvable(self) -> None:
        game, saved = self.with_levels(self.AT_ONCE), self.room / "saved.json"
        self.assertEqual(run("solve", game, "--save", saved).status, 0)
        ((name, body, demand),) = json.loads(saved.read_text(encoding="utf-8"))
        self.assertEqual((name, body[1], body[3], demand), ("level 1, won as it loads", [], 0, "solved"))
        answer = run("test", game, saved, "--solved", "*", "--solvable")
        self.assertEqual(answer.status, 0, answer.out)

    def test_levels_that_are_won_as_they_load_are_counted_where_others_are_mended(self) -> None:
        game = self.with_levels("p.co.", self.AT_ONCE, "p.c.o")
        recordings = self.write_entries([["three", ["", [3], "", 0], "solved"], ["two", ["", [3], "background mark:0,background:1,", 0]]])
        answer = run("mend", game, recordings, "--in-place")
        self.assertIn("session 0, three: ", answer.out)
        self.assertIn("    right right right right\n", answer.out)
        self.assertEqual([body[1] for _, body, *_ in json.loads(recordings.read_text(encoding="utf-8"))][0], [3] * 5)
        self.assertEqual(run("test", game, recordings, "--filter", "three").status, 0)


@plays
class DayOfRestarts(OfAGame):
    """Games with a rule that restarts the level."""

    SPIKED = DayOfStarts.GAME.replace("RULES\n", "RULES\n[ > Player | Wall ] -> restart\n")

    def test_of_a_level_that_a_restart_by_a_rule_may_win_it_is_not_known(self) -> None:
        said = "no presses win it without a restart by a rule"
        game = self.write("game.txt", self.SPIKED + DayOfStarts.LOST + "\n")
        answer = run("solve", game)
        self.assertEqual((answer.status, answer.out), (2, f"level 1: not known: {said}\n0 solved, 0 can't be won, 1 not known\n"))
        recordings = self.write_entries([["lost", ["", [3], "", 0], "solved"]])
        answer = run("test", game, recordings, "--solvable", "--quiet")
        self.assertEqual(answer.status, 2)
        self.assertIn(f"level 1: not known: {said}\n", answer.out)
        self.assertIn(said, run("mend", game, recordings).out)

    def test_a_restart_to_the_same_beginning_leaves_nothing_out(self) -> None:
        plain = self.SPIKED.replace("run_rules_on_level_start\n", "").replace("[ Mark ] -> [ Ghost ]\n", "")
        for text, status, said in (
            (plain, 1, "level 1: can't be won: no presses win it\n"),
            (plain.replace("-> restart\n", "-> restart\n[ > Player | Crate ] -> checkpoint\n"), 2, "level 1: not known: no presses win it without a restart by a rule\n"),
        ):
            answer = run("solve", self.write("game.txt", text + DayOfStarts.LOST + "\n"))
            self.assertEqual((answer.status, answer.out.splitlines(keepends=True)[0]), (status, said))

    def test_what_was_lost_before_a_rule_restarted_the_level_stays(self) -> None:
        """The crate is lost, the wall at the left restarts the level, and the last press loses it again."""
        game = self.write("game.txt", f"{self.SPIKED}########\n#.....##\n##p.c.o#\n#......#\n########\n")
        inputs = [0, 3, 3, 2, 1, 1, 1, 3, 3, 0, 3, 2]
        recordings = self.write_entries([["lost", ["", inputs, "", 0], "solved"]])
        answer = run("mend", game, recordings, "--in-place")
        longer = "whether the level can be won from a longer beginning isn't known: no presses win it without a restart by a rule"
        self.assertIn(f": mended: 11 of its 12 inputs stay, and 3 presses follow; {longer}\n    left down right\n", answer.out)
        self.assertEqual(json.loads(recordings.read_text(encoding="utf-8"))[0][1][1], [*inputs[:11], 1, 2, 3])
        self.assertEqual(run("test", game, recordings).status, 0)

    def test_what_is_said_of_presses_is_said_of_those_without_a_restart(self) -> None:
        game = self.write("game.txt", f"{self.SPIKED}p.co.#\n")
        self.assertIn("level 1: solved in 2 presses, and in no fewer without a restart by a rule\n", run("solve", game).out)
        self.assertRegex(run("solve", game, "--levels", 1).out, "presse?s? wins it without a restart by a rule, and longer ones")


@plays
class DayOfOtherInputs(OfAGame):
    """Games in which no presses win, and a restart or a tick does: the restart key leads into the midst of a press, a tick finds a player who stands still."""

    HEAD = "title Bomb\n%sOBJECTS\nBackground .\nblack\nPlayer p\nwhite\nFuse f\nred\nBomb b\nred\nLEGEND\nCOLLISIONLAYERS\nBackground\nPlayer\nFuse\nBomb\nRULES\n%s\nWINCONDITIONS\nLEVELS\n\npf.\n"
    WIN = "[ right Player ] [ Bomb ] -> [ right Player ] [ Bomb ] win"
    KEPT = f"{WIN}\n[ stationary Player ] [ Bomb ] -> [ stationary Player ] [ ]\n[ action Player ] [ Fuse ] -> [ action Player ] [ Bomb ] checkpoint again"
    TICKING = f"{WIN}\n[ stationary Player ] [ Fuse ] -> [ stationary Player ] [ Bomb ]\n[ action Player ] [ Bomb ] -> [ action Player ] [ ]"
    NOT_TRIED = "no presses win it; `{}` was not tried{}"

    def test_it_is_not_known_whether_an_input_that_is_not_tried_wins(self) -> None:
        kept = self.NOT_TRIED.format("restart", ", and a checkpoint may be kept")
        for prelude, rules, inputs, words, said in (
            ("", self.KEPT, [4, "restart", 3], (), kept),
            ("realtime_interval 0.5\n", self.TICKING, ["tick", 3], ("--ticks-as-recorded",), self.NOT_TRIED.format("tick", "")),
        ):
            game, recordings = self.write("game.txt", self.HEAD % (prelude, rules)), self.write_entries([["won", ["", inputs, "", 0]]])
            self.assertIn("; 1 solved, ", run("test", game, recordings, *words).out)
            answer = run("solve", game, *words)
            self.assertEqual((answer.status, answer.out), (2, f"level 1: not known: {said}\n0 solved, 0 can't be won, 1 not known\n"))
            stays = self.write_entries([["stays", ["", [], "background player:0,background fuse:1,background:2,\n", 0]]])
            answer = run("test", game, stays, "--solvable", *words)
            self.assertEqual((answer.status, f"level 1: not known: {said}\n" in answer.out), (2, True))

    def test_a_level_that_a_recording_wins_is_solvable(self) -> None:
        game, recordings = self.write("game.txt", self.HEAD % ("", self.KEPT)), self.write_entries([["won", ["", [4, "restart", 3], "", 0]]])
        self.assertEqual(run("accept", recordings, "--game", game, "--in-place").status, 0)
        answer = run("test", game, recordings, "--solvable", "--quiet")
        self.assertEqual((answer.status, answer.out), (0, "1 session: 1 passed, 0 differ, 0 stopped, 0 refused; 1 solved, 0 solved in part, 0 not solved\n"))

    def test_what_no_restart_nor_tick_changes_can_not_be_won(self) -> None:
        for prelude, rules in (("norestart\n", self.KEPT), ("", self.KEPT.replace(" checkpoint", "")), ("", self.TICKING)):
            answer = run("solve", self.write("game.txt", self.HEAD % (prelude, rules)))
            self.assertEqual((answer.status, answer.out.splitlines()[0]), (1, "level 1: can't be won: no presses win it"))

    def test_the_longest_beginning_is_one_behind_a_tick(self) -> None:
        """A press up lights nothing, the tick does, and behind that the action key puts it out."""
        game = self.write("game.txt", self.HEAD % ("realtime_interval 0.5\n", self.TICKING))
        recordings = self.write_entries([["lost", ["", [0, "tick", 4, 0], "", 0], "solved"]])
        answer = run("mend", game, recordings, "--ticks-as-recorded")
        self.assertIn(": mended: 2 of its 4 inputs stay, and 1 press follows; ", answer.out)


class RulesThatRestart(unittest.TestCase):
    def test_a_command_of_a_rule_is_known_from_other_words(self) -> None:
        for rule, wanted in (("[ Player ] -> restart", True), ("[ Player ] -> [ Player ] again RESTART", True), ("[ Player ] -> [ Player ] message restart", False), ("[ Player ] -> [ Player ] (restart)", False), ("[ Player | Restart ] -> [ Player | Restart ]", False)):
            self.assertIs(solving.has_restarts(DayOfStarts.GAME.replace("[ Mark ] -> [ Ghost ]", rule)), wanted, rule)


class AnswersOfASolver(unittest.TestCase):
    def test_a_line_is_an_answer(self) -> None:
        for text, wanted in (
            ({"solved": [0, 1, 2, 3, 4]}, Solved([0, 1, 2, 3, 4])),
            ({"unsolvable": True}, Unsolvable()),
            ({"outOfBounds": {"inputs": 3, "levels": 10}}, OutOfBounds(10, 3)),
            ({"over": True}, Unasked("all levels are won")),
            ({"stopped": True}, Unasked("the session was stopped before")),
            ({"refused": True}, Unasked("the game is refused")),
        ):
            self.assertEqual(answer_in(json.dumps({"session": 0, "solution": text}).encode()), wanted)

    def test_another_line_is_none(self) -> None:
        for text in (b"", b"{}", b"[]", b'{"solution":{}}', b'{"solution":{"solved":[5]}}', b'{"solution":{"solved":[true]}}', b'{"solution":{"solved":[0],"over":true}}', b'{"solution":{"other":1}}', b'{"solution":{"outOfBounds":{"levels":Infinity,"inputs":1}}}', b"\xff", b"[" * 10_000):
            with self.assertRaises(Refused, msg=text[:60]):
                answer_in(text)

    def test_a_solver_that_fails_or_does_not_end_is_told(self) -> None:
        entry = Entry(0, "a", "title a\n", [], "", 0, {}, False)
        for script, said in (("exit 3", "it ended with status 3"), ("echo no", "no answer"), ("echo read-fault >&2; exit 2", "read-fault")):
            with mock.patch.object(solving, "solver_words", lambda: ["/bin/sh", "-c", script]), self.assertRaises(Refused) as caught:
                solving.solution_of(entry, Bounds(1))
            self.assertIn(said, str(caught.exception))
        with mock.patch.object(solving, "solver_words", lambda: ["/bin/sh", "-c", "echo memory >&2; exit 2"]):
            self.assertEqual(solving.solution_of(entry, Bounds(1)), Unasked("there is not enough memory: let it keep fewer (--levels)"))
        self.assertEqual(solving.solution_of(entry, Bounds(1, end=0)), Unasked(solving.LATE))
        with mock.patch.object(solving, "solver_words", lambda: ["/bin/sh", "-c", "sleep 60"]):
            self.assertEqual(solving.solution_of(entry, Bounds(1, 0.2)), Unasked("not answered in 0.2 s, as long as a level has: let it keep fewer (--levels)"))

    def test_several_sessions_are_asked_about_at_once_or_else_the_first_alone(self) -> None:
        entry = Entry(0, "a", "title a\n", [], "", 0, {}, False)
        line = '{"session":0,"solution":{"over":true}}'
        for several, count in ((f"echo '{line}'; echo '{line}'", 2), ("echo memory >&2; exit 2", 1), ("exec sleep 60", 1)):
            script = f"case $(grep -o 'title a' | wc -l) in 1) echo '{line}';; *) {several};; esac"
            with mock.patch.object(solving, "solver_words", lambda: ["/bin/sh", "-c", script]):
                self.assertEqual(solving.solutions_of([entry, entry], Bounds(1, 2.0)), [Unasked("all levels are won")] * count)
        with mock.patch.object(solving, "solver_words", lambda: ["/bin/sh", "-c", "exec sleep 60"]):
            self.assertEqual(solving.solution_of(entry, Bounds(1, end=time.monotonic() + 0.3)), Unasked(solving.LATE))

    def test_a_solver_that_there_is_no_room_to_ask_is_told(self) -> None:
        with mock.patch.object(solving.tempfile, "TemporaryFile", side_effect=OSError(28, "No space left on device")):
            self.assertRaisesRegex(Refused, "can't be asked for a solution: No space left", solving.solution_of, Entry(0, "a", "title a\n", [], "", 0, {}, False), Bounds(1))

    def test_a_program_that_hangs_over_what_was_found_is_told(self) -> None:
        """And no other program than the engine that was asked is blamed for it; all that is saved is played in a time."""
        run_of = Run(0, "a", UNANSWERED, "not answered in 60 s", [])
        with mock.patch.object(mending, "runs_of", lambda *_: [run_of]):
            self.assertRaisesRegex(Refused, "^what wins level 1 of a was found, but is not answered in 60 s by", mending.won, Entry(0, "a", "", [0], "", 0, {}, False), 1, Sessions("a", "", []), Engine())
        given = Namespace(game="a", save=None, level=None, levels=None, within=9.0, ticks_as_recorded=False, program=None)
        with mock.patch.object(solve_verb, "read_named", lambda path: GameText(path, "title a\n")), mock.patch.object(solve_verb, "guard_game", side_effect=Refused("enough")) as guarded:
            self.assertRaisesRegex(Refused, "enough", solve_verb.main, given)
        self.assertEqual(guarded.call_args[0][1].seconds, solving.SECONDS)

    def test_the_levels_that_are_kept_have_room(self) -> None:
        """Where their number is named, no bytes bound them."""
        self.assertEqual((Bounds().words, Bounds(7).words), (("1000000", "268435456"), ("7", str(2**62))))

    def test_a_solver_that_fails_leaves_the_answers_of_what_was_played(self) -> None:
        """Of each level it isn't known then."""
        source = (Path(__file__).parent.parent / "examples/day/game.txt").read_text(encoding="utf-8")
        with mock.patch.object(solving, "solver_words", lambda: ["/bin/sh", "-c", "exit 3"]):
            levels = levels_not_won(GameText("game.txt", source), Bounds(1), Engine())
        self.assertEqual([(it.name, it.close, it.sentence) for it in levels], [(f"game.txt: level {it}", "not known", "the engine can't be asked for a solution: it ended with status 3") for it in (1, 2)])

    def test_no_beginning_is_written_out_once_the_time_is_over(self) -> None:
        """Of a session that may have very many."""
        entry = Entry(0, "a", "title a\n", ["undo"] * 60_000, "", 0, {}, False)
        mender = Mender(Sessions("a", "", [entry]), Engine(), Bounds(1, end=0))
        asked: List[int] = []

        def unasked(entries: Sequence[Entry], bounds: Bounds) -> List[Unasked]:
            asked.append(len(entries))
            return [Unasked(solving.LATE)]

        with mock.patch.object(mending, "solutions_of", unasked):
            kept = mender.kept(entry, Standing(0, 0, 60_000, False))
        self.assertEqual((kept, asked), (Kept(Unasked(f"{solving.LATE} before the beginnings up to its 60,000th input were asked about"), None), []))
