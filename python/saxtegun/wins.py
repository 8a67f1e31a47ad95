"""How many levels sessions win: over the text at hand, and over the committed one. A recording may pass that wins fewer than before."""
from __future__ import annotations

import os
from time import monotonic
from typing import Dict, Mapping, NamedTuple, Optional, Sequence, Set

from saxtegun.budget import EXPLAINING, UsedUp
from saxtegun.commands import Refused
from saxtegun.levelsets import first_level, wins_of
from saxtegun.lines import Run
from saxtegun.playing import Engine, runs_of
from saxtegun.regressions import committed_text
from saxtegun.sessions import Entry, Sessions
from saxtegun.solutions import NOT_ANSWERED, NOT_PLAYED, SOLVED, solved_of
from saxtegun.texts import GameText, same_text


def text_before(game: GameText) -> Optional[str]:
    """The committed text of a game, where it is another one."""
    text = committed_text(game.path)
    return text if text is not None and text.strip() and not same_text(text, game.source) else None


def wins_over(entries: Sequence[Entry], text: Optional[str], of: Sessions, engine: Engine) -> Dict[int, int]:
    """How many levels sessions win over a text, those that pass over it; by their numbers."""
    if text is None or not entries:
        return {}
    before = [it._replace(source=text) for it in entries]
    runs = runs_of(before, of, engine)
    ends = solved_of(before, runs, of, engine)
    passed = [(place, it.number, run) for place, (it, run) in enumerate(zip(before, runs)) if run.close == "passed"]
    return {number: wins_of(run) + (ends.get(place) == SOLVED) for place, number, run in passed}


def levels_won(entries: Sequence[Entry], runs: Sequence[Run], ends: Mapping[int, str], source: str) -> Set[int]:
    """The numbers of the levels of a source that sessions over it win, which ended so."""
    found: Set[int] = set()
    for place, (entry, run) in enumerate(zip(entries, runs)):
        wins = wins_of(run) + (ends.get(place) == SOLVED)
        if wins and entry.source == source:
            found.update(range(first_level(entry), first_level(entry) + wins))
    return found


class Before(NamedTuple):
    """How many levels a session won over the committed text, and the number of the last one there."""

    wins: int
    level: int


def wins_before(entries: Sequence[Entry], game: Optional[GameText], of: Sessions, engine: Engine) -> Dict[int, Before]:
    """What sessions over the text at hand won over the committed one, those that pass over it; by their numbers. None where there is no such
    text, or no time left to explain."""
    asked = [it for it in entries if game and it.source == game.source]
    if game is None or not asked or not EXPLAINING.is_left():
        return {}
    try:
        with EXPLAINING.spent():
            text = text_before(game)
            in_time = engine._replace(end=min(engine.end, monotonic() + EXPLAINING.seconds_left() / 2))
            wins = wins_over(asked, text, of, in_time)
            first = {it.number: first_level(it._replace(source=text or "")) for it in asked if it.number in wins}
            return {number: Before(count, first[number] + count - 1) for number, count in wins.items()}
    except (Refused, UsedUp):
        # what was played is told all the same
        return {}


def lost_wins(
    entries: Sequence[Entry], runs: Sequence[Run], ends: Mapping[int, str], before: Mapping[int, Before], game: Optional[GameText]
) -> Dict[int, str]:
    """Which sessions win fewer levels than before, in words; by their numbers. `ends` are how they ended, by their places, if it is known."""
    found: Dict[int, str] = {}
    for place, end in ends.items():
        was = before.get(entries[place].number)
        if game and was and end not in (NOT_PLAYED, NOT_ANSWERED) and was.wins > wins_of(runs[place]) + (end == SOLVED):
            found[entries[place].number] = f"it won level {was.level} over the committed {os.path.basename(game.path)}, and no longer does"
    return found
