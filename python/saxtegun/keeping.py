"""How many inputs of a session stay: the longest beginning from which its level can be won, found by few questions. Here nothing is played."""
from __future__ import annotations

from typing import Callable, Dict, List, NamedTuple, Optional, Sequence, Set

from saxtegun.solving import LATE, Answer, OutOfBounds, Solved, Unasked, Unsolvable

# What is known of beginnings, by the counts of their inputs, within small bounds or all there are: of the first ones of these, and of one at least.
Asking = Callable[[Sequence[int], bool], List[Answer]]
# So many beginnings are asked about at once.
MOST_AT_ONCE = 16


class Kept(NamedTuple):
    """What is known of the longest beginning from which a level can be won, or, where there is none, of the level's own one; with how many inputs that is, or None
    where time was over before; and what is known of longer ones, if they aren't lost."""

    answer: Answer
    length: Optional[int]
    longer: Optional[Answer] = None


class Beginnings:
    """Those of a session in the level that begins behind `begin` of its inputs, up to `end` of them, and what is known of them. `has_more` says whether there are
    larger bounds than the small ones."""

    def __init__(self, ask: Asking, begin: int, end: int, has_more: bool = True) -> None:
        self.ask, self.begin, self.end, self.has_more = ask, begin, end, has_more
        self.known: Dict[int, Answer] = {}
        self.in_full: Set[int] = set()
        # the beginning of which no time was left to ask
        self.late: Optional[int] = None

    def take(self, counts: Sequence[int], is_full: bool) -> List[Answer]:
        """Asks about beginnings. What was known before stays where time is over."""
        answers = self.ask(counts, is_full)[: len(counts)]
        for count, answer in zip(counts, answers):
            if answer == Unasked(LATE):
                self.late = count
                break
            self.known[count] = answer
            if is_full:
                self.in_full.add(count)
        return answers

    def is_open(self, count: int) -> bool:
        """Whether larger bounds may tell more of a beginning."""
        return self.has_more and count not in self.in_full and isinstance(self.known.get(count), OutOfBounds)

    def is_won(self, count: int, is_full: bool = False) -> bool:
        """Whether a level can be won, as far as is known."""
        if self.late is None and (count not in self.known or (is_full and self.is_open(count))):
            self.take([count], is_full)
        return isinstance(self.known.get(count), Solved)

    def is_lost(self, count: int) -> bool:
        return isinstance(self.known.get(count), Unsolvable)

    def unknown_of(self, count: int) -> Optional[Answer]:
        """Why it isn't known of a beginning whether it can be won, or None where it can't."""
        is_late = count not in self.known or (self.late is not None and self.is_open(count))
        return Unasked(LATE) if is_late else None if self.is_lost(count) else self.known[count]

    def none(self) -> Kept:
        """What is told where no beginning is known that can be won."""
        if self.late is None or self.is_lost(self.begin):
            return Kept(self.known[self.begin], self.begin)
        return Kept(Unasked(f"{LATE} before {late_told(self.late, self.begin)} asked about{' in full' if self.late in self.known else ''}"), None)


def late_told(count: int, begin: int) -> str:
    """The beginnings that are left, the longest of which has so many inputs."""
    return f"the beginnings up to its {ordinal(count)} input were" if count > begin else "its level's beginning was"


def ordinal(number: int) -> str:
    ending = "th" if number // 10 % 10 == 1 else {1: "st", 2: "nd", 3: "rd"}.get(number % 10, "th")
    return f"{number:,}{ending}"


def steps_back(begin: int, end: int) -> List[int]:
    """Counts from the end back to the beginning, by 1, 2, 4 and so on."""
    counts, step = [end], 1
    while counts[-1] > begin:
        counts.append(max(begin, counts[-1] - step))
        step *= 2
    return counts


def halved(of: Beginnings, low: int, high: int, is_full: bool) -> int:
    """The longest beginning by halving that can be won: `low` can, and none from `high` on is known to."""
    while low + 1 < high:
        middle = (low + high) // 2
        if of.is_won(middle, is_full):
            low = middle
        else:
            high = middle
    return low


def won_back(of: Beginnings, is_full: bool) -> Optional[int]:
    """The first beginning by steps back that can be won, or a longer one between it and the step before."""
    above = of.end + 1
    for count in steps_back(of.begin, of.end):
        if of.is_won(count, is_full):
            return halved(of, count, above, is_full)
        above = count
    return None


def found(of: Beginnings) -> Optional[int]:
    """A long beginning that can be won. Small bounds may tell, or the level's own beginning: where that is lost all are; else all bounds are needed step by step."""
    small = won_back(of, False)
    if small is not None or of.is_lost(of.begin):
        return small
    if of.is_won(of.begin, True):
        return of.begin
    return None if of.is_lost(of.begin) else won_back(of, True)


def longest(of: Beginnings) -> Kept:
    """Where a level can be won, it could be before: the inputs that lie between come next. So what decides is the next longer beginning alone."""
    low = found(of)
    if low is not None and low < of.end and of.is_won(low + 1, True):
        lost = min((it for it in of.known if of.is_lost(it)), default=of.end + 1)
        low = halved(of, low + 1, lost, True)
    if low is None:
        return of.none()
    return Kept(of.known[low], low, of.unknown_of(low + 1) if low < of.end else None)


def first_won(of: Beginnings, counts: Sequence[int]) -> Optional[int]:
    """The first of these beginnings that can be won by small bounds, asked about in growing batches as long as there is time."""
    at, size = 0, 1
    while at < len(counts) and of.late is None:
        batch = counts[at : at + size]
        answers = of.take(batch, False)
        won = next((count for count, answer in zip(batch, answers) if isinstance(answer, Solved)), None)
        if won is not None:
            return won
        at += len(answers)
        size = min(2 * size, MOST_AT_ONCE) if len(answers) == len(batch) else 1
    return None


def longest_of_all(of: Beginnings) -> Kept:
    """Where what was lost may be won again each beginning is asked about, from the end back."""
    low = first_won(of, range(of.end, of.begin - 1, -1))
    above = range(of.end, of.begin - 1 if low is None else low, -1)
    more = next((it for it in above if of.is_won(it, True)), low)
    if more is None:
        return of.none()
    unknown = (of.unknown_of(it) for it in range(more + 1, of.end + 1))
    return Kept(of.known[more], more, next((it for it in unknown if it is not None), None))
