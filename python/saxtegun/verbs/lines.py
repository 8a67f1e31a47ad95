"""Plays sessions and writes the program's lines: the program itself, with its
failures explained.

SESSIONS is a sessions file (`-` or nothing: standard input). With --game the
game's text is the source of each recording whose source is empty.
docs/sessions.md describes the lines.

Exit status, as that of ./replay: 0 every session passed, 1 some did not, 2
there is no whole output. Then a line on standard error says which file, and
where in it. The lines are the program's own: saxtegun test reads them too.
--timeout is for all sessions together."""
from __future__ import annotations

import subprocess
import sys
import tempfile
from argparse import ArgumentParser, Namespace
from math import inf
from time import monotonic
from typing import Any, List, Optional, Sequence

from saxtegun.commands import Refused, add_game, add_playing, add_ticks
from saxtegun.descriptions import expect
from saxtegun.files import NoFile, TooLong, guard_output, read_bytes
from saxtegun.playing import Late, engine_of, lines_within, refusal
from saxtegun.processes import Ran, watched
from saxtegun.sessions import MOST_BYTES, Entry, read_sessions, sessions_in
from saxtegun.texts import over, read_game, say_others, say_untested

USAGE = "lines [SESSIONS] [--game GAME.txt] [--order rows|columns] [--workers N] >lines"
# How the lines begin of what passed; any other closes a session that didn't.
OF_PASSED = ('{"at":', '{"close":"passed",')


def add_words(words: ArgumentParser) -> None:
    words.add_argument("sessions", metavar="SESSIONS", nargs="?", default="-")
    add_game(words)
    add_playing(words)
    add_ticks(words)


def told_of(path: str) -> str:
    return "standard input" if path == "-" else path


def data_of(path: str) -> bytes:
    """The bytes of a file, none where it can't be read: the program says so itself, but would wait for a pipe."""
    try:
        return read_bytes(path, MOST_BYTES)
    except (NoFile, TooLong):
        raise
    except Refused:
        if path == "-":
            raise
        return b""


def entries_of(path: str, data: bytes) -> Sequence[Entry]:
    """The entries of a file that was refused, so that one can be named; none where they can't be read either."""
    try:
        return sessions_in(path, data.decode("utf-8")).entries
    except (Refused, UnicodeDecodeError):
        return ()


def play(words: List[str], stdin: Any, seconds: Optional[float]) -> Ran:
    """Runs a program, which writes its lines to our standard output; how it ended."""
    sys.stdout.flush()
    return watched(words, sys.stdout, stdin, seconds)


def play_data(path: str, data: bytes, given: Namespace) -> Ran:
    """Plays a file by its name, and what came from standard input from a copy."""
    words = engine_of(given).words()
    if path != "-":
        return play([*words, path if not path.startswith("-") else f"./{path}"], subprocess.DEVNULL, given.timeout)
    with tempfile.TemporaryFile() as file:
        file.write(data)
        file.seek(0)
        return play(words, file.fileno(), given.timeout)


def play_over(given: Namespace) -> int:
    """Plays recordings over a game; the status by their lines."""
    game = read_game(given.game)
    sessions = over(read_sessions(given.sessions), game)
    say_others("lines", sessions, game)
    say_untested("lines", sessions.entries)
    expect(it.source for it in sessions.entries)
    engine, has_passed = engine_of(given), True
    end = monotonic() + given.timeout if given.timeout else inf
    try:
        for line in lines_within(sessions.entries, sessions, engine._replace(end=end)):
            has_passed = has_passed and line.startswith(OF_PASSED)
            sys.stdout.write(line)
    except Late:
        raise Refused(f"{given.sessions} was not played: not answered in {given.timeout:g} s") from None
    return 0 if has_passed else 1


def main(given: Namespace) -> int:
    guard_output(given.sessions, *([given.game] if given.game else []))
    if given.game or given.ticks_as_recorded:
        return play_over(given)
    path = given.sessions
    data = data_of(path)
    if b'"solved"' in data or b"\\u" in data:
        say_untested("lines", entries_of(path, data))
    ran = play_data(path, data, given)
    if ran.status not in (0, 1):
        raise Refused(refusal(ran.said, told_of(path), entries_of(path, data)))
    return ran.status
