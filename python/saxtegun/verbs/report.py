"""Writes a page that shows each session frame by frame, and where it differs from
what was recorded.

SESSIONS is the file that was played, and LINES what the program wrote for it
(`-`: standard input). Without LINES the sessions are played now, and one that
hangs is played further, to find out where. --order must be the order of the
lines. Sessions that must be solved are played in any case, and fail if they
aren't; with --game those fail that have another text than GAME. The page opens from the disk in any browser, and needs no network. The
same files give the same page; only --date puts a date there.

Exit status: 0, or 2 if a file is refused, or with --timeout some session had no
answer."""
from __future__ import annotations

import sys
from argparse import ArgumentParser, Namespace
from pathlib import Path

from saxtegun.commands import add_game, add_playing, add_ticks
from saxtegun.descriptions import expect
from saxtegun.files import guard_output
from saxtegun.hangs import Finder
from saxtegun.lines import UNANSWERED
from saxtegun.origins import add_date, origin_of, program_told
from saxtegun.pages import Report
from saxtegun.playing import engine_of, lines_or_played
from saxtegun.sessions import read_sessions
from saxtegun.solutions import UNKNOWN_END, unsolved_among
from saxtegun.texts import not_over, over, read_game, say_others

USAGE = "report SESSIONS [LINES] [--game GAME.txt] [--order rows|columns] >report.html"


def add_words(words: ArgumentParser) -> None:
    words.add_argument("sessions", metavar="SESSIONS")
    words.add_argument("lines", metavar="LINES", nargs="?")
    add_game(words)
    add_date(words)
    add_playing(words)
    add_ticks(words)


def main(given: Namespace) -> int:
    guard_output(given.sessions, *(it for it in (given.lines, given.game) if it))
    game = read_game(given.game)
    sessions = over(read_sessions(given.sessions), game)
    others = say_others("report", sessions, game)
    engine = engine_of(given)
    expect(it.source for it in sessions.entries)
    failures = {**not_over(others, game), **unsolved_among(sessions, engine)}
    with lines_or_played(sessions, given.lines, engine) as runs:
        played = f"Lines: {Path(given.lines).name}" if given.lines else program_told(engine.words())
        report = Report(sessions, given.order, origin_of(sessions, given, played, game), *([] if given.lines else [Finder(sessions, engine)]))
        late = False
        for run in runs:
            report.add(run, failures.get(run.number))
            late = late or run.close == UNANSWERED
    sys.stdout.write(report.page())
    return 2 if late or UNKNOWN_END in failures.values() else 0
