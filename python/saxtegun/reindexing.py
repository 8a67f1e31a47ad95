"""Recordings whose level has another place now, since levels were inserted, moved or taken away: the index with which each passes again, found by playing."""
from __future__ import annotations

from itertools import islice
from time import monotonic
from typing import Dict, Iterator, List, NamedTuple, Optional, Sequence

from saxtegun.commands import cut, plural
from saxtegun.descriptions import expected
from saxtegun.levelsets import places_of_levels
from saxtegun.lines import UNANSWERED
from saxtegun.playing import Engine, Late, runs_played
from saxtegun.sessions import Entry, Sessions

# So many sessions are played at once, and for so many levels a recording is tried.
MOST_AT_ONCE = 5_000
MOST_LEVELS = 1_000
# So many at first, or fewer where playing is slow; then twice as many where that took less than so many seconds, or this share of all, and in all so many.
FIRST_AT_ONCE, QUICK, SHARES = 64, 1.0, 20
WITHIN = 600.0
# So many indices are told.
MOST_TOLD = 10


class Places(NamedTuple):
    """The indices with which an entry is tried, and how many more levels there are."""

    tried: List[int]
    left: int

    def first(self, count: int) -> Places:
        """The places, of which so many were tried until the time was over."""
        return Places(self.tried[:count], self.left + len(self.tried) - count)


class Found(NamedTuple):
    """The indices with which a recording passes that doesn't pass with its own, those with which it wasn't answered, and in how many levels it was tried and
    wasn't. `why` is why its own index had no answer, and then it was tried in none."""

    entry: Entry
    indices: List[int]
    unanswered: List[int]
    tried: int
    left: int
    why: str = ""

    @property
    def new(self) -> Optional[int]:
        """The index with which it passes, where it was tried in all levels and passes in this one alone."""
        return self.indices[0] if len(self.indices) == 1 and self.is_whole else None

    @property
    def is_whole(self) -> bool:
        return not (self.left or self.unanswered or self.why)

    @property
    def has_answer(self) -> bool:
        return not (self.unanswered or self.why)

    def told(self) -> str:
        """What is to be said of it."""
        head = f"session {self.entry.number}, {cut(self.entry.name)}: "
        if self.why:
            return f"{head}{self.why}, so it was tried in no other level, and its index {self.entry.index} stays"
        if self.new is not None:
            return f"{head}its index {self.entry.index} becomes {self.new}, with which it passes"
        return f"{head}passes in {self.where}{self.untried}, so its index {self.entry.index} stays"

    @property
    def where(self) -> str:
        """In which levels it passes, of those in which it was tried."""
        levels = f"{plural(len(self.indices), 'level')} (index {listed(self.indices)})" if self.indices else "no level"
        return levels if self.is_whole else f"{levels} of the {self.tried} that were tried"

    @property
    def untried(self) -> str:
        """In which levels it isn't known."""
        late = f"; {plural(len(self.unanswered), 'level')} had no answer in time (index {listed(self.unanswered)})" if self.unanswered else ""
        return f"{late}; {self.left} more {'was' if self.left == 1 else 'were'} not tried" if self.left else late


def listed(indices: Sequence[int]) -> str:
    """Some indices, as many as are told."""
    return ", ".join([*map(str, indices[:MOST_TOLD]), *([".."] if len(indices) > MOST_TOLD else [])])


def places_of(entry: Entry) -> Places:
    """The places of the levels of a source, messages left out, but for the one that an entry names."""
    places = places_of_levels(entry.source)
    # an index that names a message begins with the level behind it
    own = next((it for it in places if it >= entry.index), None)
    others = [it for it in places if it != own]
    return Places(others[:MOST_LEVELS], max(0, len(others) - MOST_LEVELS))


def first_size(took: float, quick: float) -> int:
    """How many are played at first, where one took so many seconds, and so many are quick."""
    return max(1, int(min(FIRST_AT_ONCE, quick / took))) if took else FIRST_AT_ONCE


def batches_of(tried: Iterator[Entry], size: int, quick: float) -> Iterator[List[Entry]]:
    """Entries in batches, at first of this size, of which the next is larger where one was quick, and else smaller: of one that isn't answered in time nothing
    is known."""
    for batch in iter(lambda: list(islice(tried, size)), []):
        begin = monotonic()
        yield batch
        size = min(2 * size, MOST_AT_ONCE) if monotonic() - begin < quick else max(size // 2, 1)


def reindexed(entries: Sequence[Entry], of: Sessions, engine: Engine, seconds: float = WITHIN) -> List[Found]:
    """For recordings that don't pass the indices with which they do; no other has a line. Behind so many seconds no more levels are tried, since recordings times
    levels may be very many."""
    begin = monotonic()
    bounded = engine._replace(end=begin + seconds)
    if not entries:
        return []
    # frames aren't kept: of a recording that is tried in many levels they would be many
    runs = {it.number: run._replace(frames=[]) for run, it in zip(runs_played(entries, of, engine), entries)}
    took = (monotonic() - begin) / len(entries)
    failed = [it for it in entries if runs[it.number].close != "passed"]
    late = {it.number: str(runs[it.number].cause) for it in failed if runs[it.number].close == UNANSWERED}
    with expected(it.source for it in failed):
        places = {it.number: Places([], 0) if it.number in late else places_of(it) for it in failed}
    closes: Dict[int, Dict[str, List[int]]] = {it.number: {"passed": [], UNANSWERED: []} for it in failed}
    tried = (it._replace(index=index) for it in failed for index in places[it.number].tried)
    count = {it.number: 0 for it in failed}
    quick = max(QUICK, seconds / SHARES)
    for batch in batches_of(tried, first_size(took, quick), quick):
        try:
            for run, it in zip(runs_played(batch, of, bounded), batch):
                closes[it.number].setdefault(run.close, []).append(it.index)
                count[it.number] += 1
        except Late:
            break
        if monotonic() > bounded.end:
            break
    places = {number: it.first(count[number]) for number, it in places.items()}
    return [found_of(it, closes[it.number], places[it.number], late.get(it.number, "")) for it in failed]


def found_of(entry: Entry, closes: Dict[str, List[int]], places: Places, why: str) -> Found:
    return Found(entry, closes["passed"], closes[UNANSWERED], len(places.tried), places.left, why)
