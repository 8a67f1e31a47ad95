"""Writes the program's lines as a JUnit file, for CI systems that show one.

Each session is a test case. `differs` and `stopped` are failures. `refused` is
an error, or with --refused skipped a skipped test. With SESSIONS, the file that
was played, each has the words of `saxtegun explain`; and it shows that the
lines are whole, which they can't show themselves. Sessions that must be solved
are then played, and are failures if they aren't; with --game those are failures
that have another text than GAME.

Exit status: 0, or 2 if a file is refused."""
from __future__ import annotations

import sys
from argparse import ArgumentParser, Namespace
from itertools import chain
from pathlib import Path

from saxtegun.commands import Refused, add_game, add_playing, add_ticks
from saxtegun.descriptions import expect
from saxtegun.files import guard_output
from saxtegun.junit import junit_of
from saxtegun.mismatches import read_runs
from saxtegun.playing import engine_of
from saxtegun.sessions import read_sessions
from saxtegun.solutions import unsolved_among
from saxtegun.texts import not_over, over, read_game, say_others
from saxtegun.ticks import ticks_property

USAGE = "junit [SESSIONS] LINES [--game GAME.txt] [--order rows|columns] [--refused error|skipped] >junit.xml"


def add_words(words: ArgumentParser) -> None:
    words.add_argument("files", metavar="[SESSIONS] LINES", nargs="+")
    add_game(words)
    add_playing(words)
    add_ticks(words)
    words.add_argument("--refused", choices=("error", "skipped"), default="error")


def main(given: Namespace) -> int:
    if len(given.files) > 2:
        raise Refused("name one or two files: the lines, or the sessions and then the lines")
    guard_output(*given.files, *([given.game] if given.game else []))
    game = read_game(given.game)
    sessions = over(read_sessions(given.files[0]), game) if len(given.files) == 2 else None
    others = say_others("junit", sessions, game) if sessions else []
    if sessions:
        expect(it.source for it in sessions.entries)
    runs = read_runs(given.files[-1], sessions)
    first = next(runs, None)
    if first is None:
        raise Refused(f"{given.files[-1]} closes no session, so nothing was played")
    failures = {**not_over(others, game), **unsolved_among(sessions, engine_of(given))} if sessions else {}
    sys.stdout.write(junit_of(chain([first], runs), Path(given.files[0]).name, sessions, given.order, given.refused, failures, properties=ticks_property(given.ticks_as_recorded)))
    return 0
