"""`saxtegun accept --reindex`: recordings of levels that have moved pass again, and nothing else is changed."""
from __future__ import annotations

import json
import time
import tracemalloc
import unittest
import unittest.mock
from pathlib import Path
from typing import Any, Dict, Iterator, List, Optional, Sequence, Tuple

from test_processes import ENOUGH, PLAYER, SLOW, Programs
from test_test import OfAGame
from tool import Answer, plays, run
from saxtegun import reindexing
from saxtegun.lines import UNANSWERED, Frame, Run
from saxtegun.playing import Engine
from saxtegun.sessions import Entry, sessions_in

# A level of another kind than the two of the example, which can not be won: a target, and no crate.
NEW = "#####\n#P.O#\n#####\n"


def starts(source: str) -> List[str]:
    return source.partition("LEVELS\n=======\n")[2].strip("\n").split("\n\n")


@plays
class DayOfReindexing(OfAGame):
    def setUp(self) -> None:
        super().setUp()
        head, heading, levels = self.source.partition("LEVELS\n=======\n")
        self.moved = f"{head}{heading}\n{NEW}\nmessage hello\n{levels}"
        self.write("game.txt", self.moved)

    def entries_after(self, *words: object, file: Optional[Path] = None) -> Tuple[Answer, List[Any]]:
        path = file or self.recordings
        answer = run("accept", path, "--game", self.game, "--reindex", *words)
        return answer, json.loads(answer.out or path.read_text(encoding="utf-8"))

    def test_what_passes_in_one_other_level_gets_its_index(self) -> None:
        """A level and a message stand before the two of the example, so that indices grow by two; the stale recording passes in no level."""
        before = self.recordings.read_bytes()
        answer, entries = self.entries_after()
        self.assertEqual((answer.status, self.recordings.read_bytes()), (0, before))
        old = [it[1][3] for it in self.entries]
        self.assertEqual([it[1][3] for it in entries], [*(it + 2 for it in old[:4]), old[4]])
        self.assertEqual([[*it[1][:3], *it[1][4:]] for it in entries], [[*it[1][:3], *it[1][4:]] for it in self.entries])
        said = answer.errors.splitlines()
        self.assertEqual(said[0], f"accept: session 0, {self.entries[0][0]}: its index {old[0]} becomes {old[0] + 2}, with which it passes")
        self.assertEqual(said[4:], ["accept: session 4, a recording that has gone stale: passes in no level, so its index 0 stays", "accept: 4 of 5 indices changed"])

    def test_in_place_they_pass_again(self) -> None:
        self.entries_after("--in-place")
        self.assertIn("5 sessions: 4 passed, 1 differs", run("test", self.game, self.recordings).out)
        answer, entries = self.entries_after("--only", "half*")
        self.assertEqual((answer.status, answer.errors), (0, "accept: 0 of 5 indices changed\n"))

    def test_others_are_never_touched(self) -> None:
        answer, entries = self.entries_after("--only", "half*")
        self.assertEqual([it[1][3] for it in entries], [it[1][3] + 2 * it[0].startswith("half") for it in self.entries])
        answer, _ = self.entries_after("--only", "a recording*")
        self.assertEqual(answer.status, 1)

    def test_where_two_levels_are_alike_nothing_is_guessed(self) -> None:
        self.write("game.txt", self.moved + "\n\n" + starts(self.source)[0] + "\n")
        answer, entries = self.entries_after("--only", "half*")
        self.assertEqual((answer.status, [it[1][3] for it in entries]), (1, [it[1][3] for it in self.entries]))
        self.assertIn("half way through the first: passes in 2 levels (index 2, 4), so its index 0 stays", answer.errors)

    def test_an_index_that_is_not_there_follows_the_level(self) -> None:
        name, body = self.entries[2]
        for end, left in (("", ""), (", null", ""), (', null, "seed"', ', "seed"')):
            text = f"[ [{json.dumps(name)}, {json.dumps(body[:3])[:-1]}{end} ]]\n]"
            self.write("r.json", text)
            answer, _ = self.entries_after(file=self.room / "r.json")
            self.assertEqual(answer.out, f"[ [{json.dumps(name)}, {json.dumps(body[:3])[:-1]}, 2{left} ]]\n]")

    def test_it_plays_by_itself(self) -> None:
        for words in (("--review",), (self.lines,)):
            self.assert_refused(run("accept", self.recordings, *words, "--reindex", "--game", self.game), "--reindex plays by itself")


# So many levels more than are tried.
LEFT = 7


class Bounds(unittest.TestCase):
    """What is said where not all levels were tried, or where some session had no answer: never more than is known."""

    def found(self, count: int, closes: Dict[int, str]) -> Any:
        """What is found for a recording of the first of so many levels that differs, and closes so with the indices that are named, and else differs."""
        source = "LEVELS\n" + "a\n\n" * count
        sessions = sessions_in("s.json", json.dumps([["a", [source, [], "a:0,"]]]))

        def played(entries: Sequence[Entry], of: Any, engine: Engine) -> List[Run]:
            return [Run(number, it.name, closes.get(it.index, "differs"), "not answered in 1 s" if closes.get(it.index) == UNANSWERED else None, []) for number, it in enumerate(entries)]

        with unittest.mock.patch.object(reindexing, "runs_played", played):
            found, = reindexing.reindexed(sessions.entries, sessions, Engine())
        return found

    def test_where_all_levels_are_tried_one_alone_is_taken(self) -> None:
        found = self.found(1 + reindexing.MOST_LEVELS, {700: "passed"})
        self.assertEqual((found.new, found.told()), (700, "session 0, a: its index 0 becomes 700, with which it passes"))

    def test_what_is_shown_in_all_levels_is_not_kept(self) -> None:
        """Of 500 levels each run has a frame of 100,000 letters, which would be 50 MB."""
        sessions = sessions_in("s.json", json.dumps([["a", ["LEVELS\n" + "a\n\n" * 500, [], "a:0,"]]]))

        def played(entries: Sequence[Entry], of: Any, engine: Engine) -> Iterator[Run]:
            for number, it in enumerate(entries):
                yield Run(number, it.name, "differs", None, [Frame(0, "start", " " * (100_000 + number))])

        tracemalloc.start()
        try:
            with unittest.mock.patch.object(reindexing, "runs_played", played):
                found, = reindexing.reindexed(sessions.entries, sessions, Engine())
            peak = tracemalloc.get_traced_memory()[1]
        finally:
            tracemalloc.stop()
        self.assertEqual(found.tried, 499)
        self.assertLess(peak, 10_000_000)

    def test_where_levels_are_left_nothing_is_changed(self) -> None:
        count = 1 + reindexing.MOST_LEVELS + LEFT
        found = self.found(count, {700: "passed", 1003: "passed"})
        self.assertEqual((found.new, found.has_answer), (None, True))
        self.assertEqual(found.told(), "session 0, a: passes in 1 level (index 700) of the 1000 that were tried; 7 more were not tried, so its index 0 stays")
        self.assertEqual(self.found(count, {}).told(), "session 0, a: passes in no level of the 1000 that were tried; 7 more were not tried, so its index 0 stays")

    def test_where_the_time_is_over_no_more_levels_are_tried(self) -> None:
        """Of two recordings the first was tried in all, so its index is known; the other keeps its own."""
        source = "LEVELS\n" + "a\n\n" * 60
        sessions = sessions_in("s.json", json.dumps([[name, [source, [], "a:0,"]] for name in "abc"]))
        sizes = []

        def played(entries: Sequence[Entry], of: Any, engine: Engine) -> List[Run]:
            sizes.append(len(entries))
            return [Run(number, it.name, "passed" if it.index == 3 else "differs", None, []) for number, it in enumerate(entries)]

        with unittest.mock.patch.object(reindexing, "runs_played", played):
            found = reindexing.reindexed(sessions.entries, sessions, Engine(), 0.0)
            self.assertEqual(([it.new for it in found], [it.tried for it in found], sizes), ([3, None, None], [59, 5, 0], [3, 64]))
            self.assertEqual(found[1].told(), "session 1, b: passes in 1 level (index 3) of the 5 that were tried; 54 more were not tried, so its index 0 stays")
            self.assertEqual([it.new for it in reindexing.reindexed(sessions.entries, sessions, Engine())], [3, 3, 3])

    def test_a_level_without_an_answer_is_named(self) -> None:
        found = self.found(4, {1: "passed", 3: UNANSWERED})
        self.assertEqual((found.new, found.has_answer), (None, False))
        self.assertEqual(found.told(), "session 0, a: passes in 1 level (index 1) of the 3 that were tried; 1 level had no answer in time (index 3), so its index 0 stays")

    def test_a_session_without_an_answer_is_named(self) -> None:
        found = self.found(4, {0: UNANSWERED, 1: "passed"})
        self.assertEqual((found.new, found.has_answer), (None, False))
        self.assertEqual(found.told(), "session 0, a: not answered in 1 s, so it was tried in no other level, and its index 0 stays")


class Time(Programs):
    def test_a_session_without_an_answer_is_named_and_the_status_is_2(self) -> None:
        sessions = self.suite(["quick", "slow"])
        for words in ((), ("--reindex",), ("--only", "slow"), ("--only", "slow", "--reindex")):
            answer = run("accept", sessions, *words, "--program", self.program(PLAYER), "--timeout", "1")
            self.assertEqual((answer.status, answer.out), (2, sessions.read_text(encoding="utf-8")), words)
            self.assertIn("accept: session 1, slow", answer.errors)
            self.assertIn("not answered in 1 s", answer.errors)
        self.assertEqual(run("accept", sessions, "--only", "quick", "--reindex", "--program", self.program(PLAYER), "--timeout", ENOUGH).status, 0)

    def test_no_more_levels_are_played_at_once_than_there_is_time_for(self) -> None:
        """Sixty would take half a minute."""
        sessions = self.write("s.json", json.dumps([["a", ["LEVELS\n" + "a\n\n" * 61, [], "a:0,"]]]))
        answer = run("accept", sessions, "--reindex", "--within", "2", "--program", self.program(SLOW))
        self.assertEqual(answer.status, 0, answer.errors)
        self.assertRegex(answer.errors, r"session 0, a: passes in no level of the \d+ that were tried; [3-6]\d more were not tried, so its index 0 stays\n")


if __name__ == "__main__":
    unittest.main()
