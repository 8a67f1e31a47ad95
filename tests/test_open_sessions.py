"""A session that is kept open in Node while it is played: what it shows, and what is done where it is lost."""
from __future__ import annotations

import json
import os
import signal
import sys
import time
import tracemalloc
import unittest
from argparse import Namespace
from random import Random
from typing import Any, List, Sequence
from unittest import mock

from tool import TOP, InARoom  # which puts the package on the path
from saxtegun import open_sessions, programs
from saxtegun.commands import Refused
from saxtegun.open_sessions import Closed, OpenSession, opened
from saxtegun.playing import Engine, shown_beyond
from saxtegun.sessions import Entry, Input
from saxtegun.verbs.play import Play

DAY = (TOP / "examples/day/game.txt").read_text(encoding="utf-8")
# A game in which a press to the left never comes to rest.
ENDLESS = DAY.replace("[ > Player | Crate ] -> [ > Player | > Crate ]", "[ > Player | Crate ] -> [ > Player | > Crate ]\n[ left Player ] -> [ left Player ] again\nlate [ Player | ] -> [ | Player ]")
KEYS: Sequence[Input] = (0, 1, 2, 3, 4, "undo", "restart", "tick")
# A game whose frames are long, by the name of its player.
LETTERS = 100_000
LONG = f"title long\nOBJECTS\nBackground .\nred\n{'n' * LETTERS} p\nred\nLEGEND\nPlayer = p\nCOLLISIONLAYERS\nBackground\np\nRULES\nWINCONDITIONS\nLEVELS\np.\n"


def in_node() -> str:
    try:
        return programs.in_node().words[0]
    except Refused:
        return ""


NODE = in_node()


@unittest.skipUnless(NODE, "Node is not there, which dev/tools installs, or no module is released")
class OpenSessions(InARoom):
    """Each plays by the released module, whatever is built here."""

    def setUp(self) -> None:
        super().setUp()
        words = mock.patch.object(programs, "CHOSEN", [[NODE, str(programs.REPLAY_IN_NODE)]])
        words.start()
        self.addCleanup(words.stop)
        unnamed = mock.patch.dict(os.environ)
        unnamed.start()
        self.addCleanup(unnamed.stop)
        os.environ.pop("SAXTEGUN_PROGRAM", None)

    def entry(self, source: str = DAY, inputs: Sequence[Any] = (), index: int = 0) -> Entry:
        return Entry(0, "play", source, list(inputs), "", index, {}, False)

    def play(self, source: str = DAY) -> Play:
        path = self.room / "game.txt"
        path.write_text(source, encoding="utf-8")
        return Play(Namespace(game=str(path), level=1, program=None, ticks_as_recorded=False, letters=True))

    def test_each_key_shows_what_playing_all_shows(self) -> None:
        random = Random(78)
        for index in (0, 1):
            inputs: List[Input] = []
            known = 1
            with opened(self.entry(index=index), Engine()) as session:
                assert session is not None
                for _ in range(10):
                    inputs.append(random.choice(KEYS))
                    shown = shown_beyond(self.entry(inputs=inputs, index=index), known, Engine())
                    self.assertEqual(session.give(inputs[-1]), shown)
                    known += len(shown.frames)
                back = shown_beyond(self.entry(inputs=inputs[:7], index=index), 0, Engine())
                self.assertEqual(session.back(7), back._replace(frames=[it for it in back.frames if it.at == 7]))

    def test_a_key_costs_a_press(self) -> None:
        keys = [0, 1, 2, 3] * 250
        with opened(self.entry(), Engine()) as session:
            assert session is not None
            session.ask(keys)
            begin = time.monotonic()
            for key in keys[:100]:
                session.give(key)
            each = (time.monotonic() - begin) / 100
        begin = time.monotonic()
        for _ in range(3):
            shown_beyond(self.entry(inputs=keys), len(keys), Engine())
        # whatever else the machine does, to begin Node and play all takes some thirty times as long
        self.assertLess(each, (time.monotonic() - begin) / 3 / 3)

    def test_a_key_that_is_left_out_leaves_the_session_as_it_was(self) -> None:
        keys: List[Input] = [3, 1, 0, "undo", 2, 1]
        source = DAY.replace("RULES\n", "RULES\n[ left Player ] -> [ Player ] again\n", 1)
        play = self.play(source)
        with play.kept_open():
            for key in keys:
                play.press(key)
            found = list(play.inputs), play.count, play.last
        whole = self.play(source)
        for key in keys:
            whole.press(key)
        self.assertEqual(found, (whole.inputs, whole.count, whole.last))

    def test_a_key_beyond_the_most_inputs_is_left_out(self) -> None:
        play = self.play()
        with play.kept_open():
            assert play.session is not None
            play.session.ask([3, 1] * 32_767 + [3])
            play.inputs = [*[3, 1] * 32_767, 3]
            self.assertEqual(play.press(1), "")
            self.assertEqual(play.press(3), "a recording has 65,536 inputs at most: the key is left out")
        self.assertEqual(len(play.inputs), 65_536)

    def test_where_node_is_lost_all_is_played_whole(self) -> None:
        play = self.play()
        with mock.patch.object(open_sessions, "started", side_effect=open_sessions.started) as started, play.kept_open():
            self.assertEqual(started.call_count, 1)
            play.press(3)
            assert play.session is not None
            play.session.asked.close()
            play.press(1)
            self.assertIsNone(play.session)
            play.press("undo")
        self.assertEqual(play.inputs, [3, 1, "undo"])
        shown = self.shown(play.inputs)
        self.assertEqual((play.count, play.last), (len(shown), shown[-1]))

    def test_a_frame_takes_no_memory_behind_the_next(self) -> None:
        play = self.play(LONG)
        with play.kept_open():
            play.press(3)
            tracemalloc.start()
            self.addCleanup(tracemalloc.stop)
            for key in (1, 3) * 10:
                play.press(key)
            kept, _ = tracemalloc.get_traced_memory()
        self.assertGreater(len(play.last.level), LETTERS)
        self.assertLess(kept, 5 * LETTERS)

    def shown(self, inputs: Sequence[Any]) -> Any:
        return shown_beyond(self.entry(inputs=inputs), 0, Engine()).frames

    def test_what_is_no_answer_closes_it(self) -> None:
        for written in (b"", b"no line", b"no JSON\n", b"{}\n", b'{"at":0}\n', b'{"fault":"memory"}\n'):
            answered = self.room / "answered"
            answered.write_bytes(written)
            with self.subTest(written), answered.open("rb") as lines, (self.room / "asked").open("wb") as asked, self.assertRaises(Closed):
                OpenSession("play", asked, lines).give(3)

    def test_nothing_is_open_where_another_program_plays_or_the_game_is_refused(self) -> None:
        with opened(self.entry(), Engine(program=sys.executable)) as session:
            self.assertIsNone(session)
        for entry in (self.entry("no game"), self.entry(index=7)):
            with opened(entry, Engine()) as session:
                self.assertIsNone(session)

    def test_a_line_that_asks_nothing_ends_the_program(self) -> None:
        for asked in (b"{}", b"[9]", b"-1", b"[", b'["up"]', b"1" * 1_048_577):
            with self.subTest(asked[:9]), opened(self.entry(), Engine()) as session:
                assert session is not None
                session.asked.write(asked + b"\n")
                session.asked.flush()
                with self.assertRaises(Closed):
                    session.answer()

    def test_too_few_inputs_leave_it_as_it_was(self) -> None:
        with opened(self.entry(), Engine()) as session:
            assert session is not None
            session.give(3)
            with self.assertRaisesRegex(Closed, "too-few-inputs"):
                session.back(2)
            self.assertEqual(session.give(1).frames, self.shown([3, 1])[-1:])


if __name__ == "__main__":
    unittest.main()
