"""The levels of a source as its glyphs draw them: which one a session stands in, and which one a recorded level is of."""
from __future__ import annotations

from bisect import bisect_left
from collections import Counter
from functools import lru_cache
from typing import Dict, List, NamedTuple, Optional, Sequence, Tuple

from saxtegun.budget import EXPLAINING
from saxtegun.commands import fold
from saxtegun.descriptions import Drawn, description_of
from saxtegun.games import game_of
from saxtegun.levels import Labels, read_cells, width_of
from saxtegun.lines import Run
from saxtegun.sessions import Entry

# No program plays a level whose sides, or cells, are more.
MOST_SIDE, MOST_CELLS = 255, 16_384


def entries_of_levels(source: str) -> List[Drawn]:
    """The entries of LEVELS, messages included."""
    return description_of(source).levels


@lru_cache(maxsize=64)
def places_of_levels(source: str) -> Tuple[int, ...]:
    """Which entries of LEVELS are levels, and no messages. Of a game with many of these many sessions may be told."""
    return tuple(place for place, it in enumerate(entries_of_levels(source)) if it.rows)


@lru_cache(maxsize=64)
def levels_by_size(source: str) -> Dict[int, List[int]]:
    """The numbers of the levels, from 1, by how many cells they have."""
    found: Dict[int, List[int]] = {}
    entries = entries_of_levels(source)
    for number, place in enumerate(places_of_levels(source), 1):
        rows = entries[place].rows
        found.setdefault(len(rows) * len(rows[0]), []).append(number)
    return found


def first_level(entry: Entry) -> int:
    """The number of the level that a session starts in, from 1, messages left out."""
    return 1 + bisect_left(places_of_levels(entry.source), entry.index)


def count_of_levels(source: str) -> int:
    return len(places_of_levels(source))


def wins_of(run: Run) -> int:
    """How many levels a session has won, as far as a next one was loaded."""
    return sum(1 for it in run.frames if it.kind == "load")


class Likeness:
    """How like a recorded level is to drawn ones, with what was found out of pairs of a letter and a set of names."""

    def __init__(self, source: str, cells: Sequence[int], labels: Labels) -> None:
        self.game, self.cells = game_of(source), cells
        self.sets = [frozenset(it) for it in labels.names]
        self.known: Dict[Tuple[str, int], bool] = {}

    def is_drawn_by(self, letter: str, label: int) -> bool:
        """Whether a letter draws a set of names, but for the background."""
        if (letter, label) not in self.known:
            drawn, cell = self.game.drawn_by(fold(letter)), self.sets[label]
            self.known[letter, label] = drawn <= cell and cell - drawn <= self.game.grounds
        return self.known[letter, label]

    def of(self, level: Drawn, width: int, order: str) -> int:
        """In how many cells the recorded level is as it is drawn; -1 where it has another size."""
        columns = len(level.rows[0])
        if columns != width or columns * len(level.rows) != len(self.cells):
            return -1
        rows = [row.ljust(columns, row[-1])[:columns] for row in level.rows]
        letters = "".join(rows) if order == "rows" else "".join("".join(it) for it in zip(*rows))
        return sum(count for pair, count in Counter(zip(letters, self.cells)).items() if self.is_drawn_by(*pair))


class Guess(NamedTuple):
    """The number of a level, and whether it is sure."""

    level: int
    is_sure: bool


def level_of_recorded(entry: Entry, order: str) -> Optional[Guess]:
    """The level that the recorded one is of: surely where one level alone has so many cells, since play changes no size; else the one that it is
    most like, where one is more like it than any other."""
    labels = Labels()
    read = read_cells(entry.level, labels)
    if not read:
        return None
    numbers = levels_by_size(entry.source).get(len(read), [])
    if len(numbers) == 1:
        return Guess(numbers[0], True)
    width, like = width_of(entry.level, len(read)), Likeness(entry.source, read, labels)
    entries, places = entries_of_levels(entry.source), places_of_levels(entry.source)
    likeness = [like.of(entries[places[it - 1]], width, order) for it in EXPLAINING.each(numbers)]
    best = max(likeness, default=-1)
    return Guess(numbers[likeness.index(best)], False) if best > 0 and likeness.count(best) == 1 else None


def still_in(entry: Entry, run: Run, order: str) -> Optional[str]:
    """That a session ended in another level than its recording, in words, or None. Where it is, playing shows: a level is loaded at each win."""
    recorded, reached = level_of_recorded(entry, order), first_level(entry) + wins_of(run)
    if recorded is None or recorded.level == reached:
        return None
    is_of = "is" if recorded.is_sure else "looks like"
    return f"{'still' if reached < recorded.level else 'already'} in level {reached}, and the recorded level {is_of} level {recorded.level}"
