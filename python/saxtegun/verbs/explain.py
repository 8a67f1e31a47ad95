"""Says in words which sessions did not pass, and why.

SESSIONS is the file that was played, and LINES what the program wrote for it
(`-`: standard input). Without LINES the sessions are played now. Each session
that did not pass has a line with its cause; those that one fault of a game
refuses have one together. Below it stands the line of the source that the cause
names, or the first cells that differ, with what stands there and what was
recorded. If the game's letters can draw them, both levels follow. A session that
passed, and isn't solved though its entry demands that, has a line too: those that
must be solved are played for that, also where LINES are there. With --game one
that has another text than GAME has a line: it wasn't played over GAME.

Sessions and frames are counted from 0, as the program does, columns and rows
from 1. --order must be the order of the lines.

Exit status: 0, or 2 if a file is refused."""
from __future__ import annotations

import sys
from argparse import ArgumentParser, Namespace
from typing import Dict, List, NamedTuple, Tuple

from saxtegun.commands import add_game, add_playing, add_ticks, plural, printable
from saxtegun.descriptions import expect
from saxtegun.explanations import heading, summary, told
from saxtegun.files import guard_output
from saxtegun.lines import UNANSWERED, Run
from saxtegun.playing import engine_of, lines_or_played
from saxtegun.sessions import read_sessions
from saxtegun.solutions import UNKNOWN_END, unsolved_among, unsolved_told
from saxtegun.texts import elsewhere_told, file_of, not_over, over, read_game, say_others
from saxtegun.ticks import ticks_told

USAGE = "explain SESSIONS [LINES] [--game GAME.txt] [--order rows|columns]"


class Told(NamedTuple):
    """What is said of a session, and of how many more."""

    run: Run
    sentence: str
    below: List[str]
    more: List[int]

    def lines(self) -> List[str]:
        name, _, close = heading(self.run).rpartition(": ")
        name += f" and {plural(len(self.more), 'more session')}" if self.more else ""
        return [f"{name}: {close}: {printable(self.sentence)}", *(f"    {printable(it)}" for it in self.below)]


def add_words(words: ArgumentParser) -> None:
    words.add_argument("sessions", metavar="SESSIONS")
    words.add_argument("lines", metavar="LINES", nargs="?")
    add_game(words)
    add_playing(words)
    add_ticks(words)


def main(given: Namespace) -> int:
    guard_output(given.sessions, *(it for it in (given.lines, given.game) if it))
    game = read_game(given.game)
    sessions = over(read_sessions(given.sessions), game)
    others = say_others("explain", sessions, game)
    expect(it.source for it in sessions.entries)
    engine = engine_of(given)
    closes: List[str] = []
    told_of: Dict[Tuple[object, ...], Told] = {}
    elsewhere, unsolved = not_over(others, game), unsolved_among(sessions, engine)
    failures = {**elsewhere, **unsolved}
    failed: List[int] = []
    with lines_or_played(sessions, given.lines, engine) as runs:
        for run in runs:
            closes.append(run.close)
            if run.close == "passed" and run.number in failures:
                failed.append(run.number)
                told_of[(run.number,)] = Told(run, failures[run.number], [], [])
            elif run.close != "passed":
                entry = sessions.entries[run.number]
                # one fault of a game is one, however many sessions it refuses
                key: Tuple[object, ...] = (entry.source, run.cause) if run.close == "refused" else (run.number,)
                if key in told_of:
                    told_of[key].more.append(run.number)
                else:
                    told_of[key] = Told(run, *told(run, entry, given.order, file_of(entry, game)), [])
    lines = [line for it in told_of.values() for line in it.lines()]
    counts = summary(closes) + unsolved_told([unsolved[it] for it in failed if it in unsolved]) + elsewhere_told(sum(it in elsewhere for it in failed))
    sys.stdout.write("\n".join([*lines, counts + ticks_told()]) + "\n")
    return 2 if UNANSWERED in closes or UNKNOWN_END in unsolved.values() else 0
