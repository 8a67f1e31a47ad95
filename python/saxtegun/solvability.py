"""Whether each level of a game can be won. One that can't is a failure, and so is one of which it isn't known."""
from __future__ import annotations

from typing import Collection, List

from saxtegun.beginnings import answer_of
from saxtegun.commands import Refused
from saxtegun.failures import Failure
from saxtegun.levelsets import count_of_levels, entries_of_levels, places_of_levels
from saxtegun.playing import Engine
from saxtegun.solving import Answer, Bounds, Solved, Unasked, Unsolvable, told, unknown_told
from saxtegun.texts import GameText

# What is said of a level that can't be won, and of one of which it isn't known.
UNSOLVABLE, UNKNOWN = "unsolvable", "not known"


def levels_not_won(game: GameText, bounds: Bounds, engine: Engine, won: Collection[int] = ()) -> List[Failure]:
    """The levels of a game for which no solution is found. Those that recordings win need none."""
    found: List[Failure] = []
    count = count_of_levels(game.source)
    for level in (it for it in range(1, count + 1) if it not in won):
        try:
            answer: Answer = answer_of(game, level, bounds, engine)
        except Refused as why:
            # what was played is told all the same
            answer = Unasked(str(why))
        if not isinstance(answer, Solved):
            line = entries_of_levels(game.source)[places_of_levels(game.source)[level - 1]].numbers[0]
            close, sentence = (UNSOLVABLE, told(answer)) if isinstance(answer, Unsolvable) else (UNKNOWN, unknown_told(answer))
            found.append(Failure(f"{game.path}: level {level}", close, sentence, [], game.path, line))
    return found or ([] if count else [Failure(game.path, UNKNOWN, "it has no level to win", [], game.path, 1)])
