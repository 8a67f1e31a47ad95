"""What is known of a level from its beginning: also of one that is won while it loads, which no press can win."""
from __future__ import annotations

from typing import Optional

from saxtegun.differences import START, keywords_of
from saxtegun.levelsets import places_of_levels, wins_of
from saxtegun.lines import UNANSWERED
from saxtegun.playing import Engine, runs_of
from saxtegun.sessions import Entry, Sessions
from saxtegun.solutions import NOT_ANSWERED, SOLVED, solved_of
from saxtegun.solving import LATE, Answer, Bounds, Solved, Unasked, solution_of
from saxtegun.texts import GameText


def begin_of(source: str, level: int) -> Entry:
    """The session that begins in the level of this number, without an input."""
    return Entry(0, f"level {level}", source, [], "", places_of_levels(source)[level - 1], {}, False)


def known_as_it_loads(entry: Entry, of: Sessions, engine: Engine) -> Optional[Answer]:
    """That a level is won while it loads, or that this isn't known; None where it isn't won so."""
    run = runs_of([entry], of, engine)[0]
    end = solved_of([entry], [run], of, engine).get(0)
    if run.close == UNANSWERED or end == NOT_ANSWERED:
        return Unasked(f"its beginning is {run.cause or NOT_ANSWERED} by the program that plays")
    return Solved([]) if wins_of(run) or end == SOLVED else None


def answer_of(game: GameText, level: int, bounds: Bounds, engine: Engine) -> Answer:
    """What is known of a level. Only rules that run as it loads win it there; a session that has won it stands in another level, or in none."""
    entry = begin_of(game.source, level)
    if START not in keywords_of(game.source):
        return solution_of(entry, bounds)
    left = bounds.seconds_left
    if left <= 0:
        return Unasked(LATE)
    known = known_as_it_loads(entry, Sessions(game.path, "", []), engine._replace(seconds=min(left, engine.seconds or left)))
    return solution_of(entry, bounds) if known is None else known
