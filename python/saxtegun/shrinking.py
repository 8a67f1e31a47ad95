"""The smallest session on which two programs still part in the same way: what can be left out is, half of it at once, then less and less."""
from __future__ import annotations

import re
from itertools import combinations, islice, takewhile
from math import inf
from time import monotonic
from typing import Callable, Iterator, List, NamedTuple, Optional, Sequence, Set, Tuple

from saxtegun.budget import EXPLAINING, SECONDS
from saxtegun.commands import Refused
from saxtegun.divergence import Divergence, divergence_of
from saxtegun.engines import FAILED, STRAY, answers
from saxtegun.lines import UNANSWERED, Run
from saxtegun.playing import Engine
from saxtegun.processes import Beside
from saxtegun.reductions import STAGES, Stage, of_inputs
from saxtegun.sessions import Entry
from saxtegun.stage_descriptions import Text
from saxtegun.stage_divergence import Side, rules_that_part

Way = Tuple[object, ...]
# So many sessions are played at once.
MOST_AT_ONCE = 64
MOST_ROUNDS = 20
# So many of the last inputs are left out in pairs.
MOST_PAIRED = 40
# So long an engine that hangs is waited for while a session shrinks.
HASTE = 0.5
DIGITS = re.compile(r"[0-9]+")


class Programs(NamedTuple):
    """Two programs, and how they are called; where that is named, what tells the stages of each (None: what tells ours); and when playing them ends."""

    one: Engine
    other: Engine
    tellers: Tuple[Optional[str], ...] = ()
    end: float = inf

    def is_over(self) -> bool:
        return monotonic() > self.end

    def answers(self, entries: Sequence[Entry], engine: Engine) -> Iterator[Run]:
        """What one of them shows, as long as there is time."""
        for run in answers(entries, engine):
            yield run
            if self.is_over():
                return

    def pairs(self, entries: Sequence[Entry]) -> Iterator[Tuple[Run, Run]]:
        """What both show of entries, in their order, as long as there is time. Either may close wrongly, or fail: that is what is looked for."""
        one = Beside(lambda: list(self.answers(entries, self.one)))
        try:
            for number, other in enumerate(self.answers(entries, self.other)):
                if number >= len(one.result()):
                    return
                yield one.result()[number], other
        finally:
            one.leave()

    def in_haste(self) -> "Programs":
        one, other = (it._replace(seconds=min(it.seconds or HASTE, HASTE)) for it in (self.one, self.other))
        return self._replace(one=one, other=other)

    def way(self, entry: Entry, one: Run, other: Run, wanted: Optional[Way] = None) -> Optional[Way]:
        """In which way they part on an entry; where their stages are told, also by the rules of the first that parts, unless the rest isn't what is wanted.
        Refused where these can't be told, unless it is known already what is wanted: nothing could be held to them."""
        way = way_of(one, other)
        if way is None or not self.tellers or fails(way) or (wanted is not None and wanted[: len(way)] != way):
            return way
        # each session that is tried has the time of one that is explained
        EXPLAINING.left = SECONDS
        text = Text(entry.source, "", self.one.order)
        sides = Side("one", entry, text, self.tellers[0]), Side("the other", entry, text, self.tellers[1])
        try:
            return (*way, rules_that_part(sides, (one, other), divergence_of(one, other), self.one, SECONDS))
        except Refused as why:
            if wanted is None:
                raise Refused(f"--stages: {why}") from None
            return None

    def ways(self, entries: Sequence[Entry], wanted: Optional[Way] = None) -> List[Optional[Way]]:
        """In which way they part on each of these."""
        return [self.way(entry, *runs, wanted) for entry, runs in zip(entries, self.pairs(entries))]


def close_of(run: Run) -> Tuple[str, str]:
    """How a run is closed, with its cause, and without the line of a source that it names."""
    return run.close, (run.cause or "").partition(":")[0]


def failure_of(run: Run) -> Optional[Tuple[str, str]]:
    """In which way an engine failed, without numbers; None where it did not. Of a line that is none its first word counts."""
    if run.close not in FAILED:
        return None
    cause = DIGITS.sub("#", run.cause or "")
    return run.close, cause.split(" ")[0] if run.close == STRAY else cause


def way_of(one: Run, other: Run) -> Optional[Way]:
    """In which way two runs part, or None where they don't: what must stay the same while a session shrinks."""
    failures = failure_of(one), failure_of(other)
    if any(failures):
        return "failure", *failures
    divergence = divergence_of(one, other)
    if divergence is None:
        return None
    if divergence.kind == "close":
        return "close", close_of(one), close_of(other)
    if divergence.one is None or divergence.other is None:
        return "end", None if divergence.one is None else divergence.one.kind, close_of(one if divergence.one is None else other)
    return divergence.kind, divergence.one.kind, divergence.other.kind


def fails(way: Way) -> bool:
    return way[0] == "failure"


def hangs(way: Way) -> bool:
    return fails(way) and any(isinstance(it, tuple) and it[0] == UNANSWERED for it in way)


def size_of(entry: Entry) -> Tuple[int, int]:
    return len(entry.inputs), len(entry.source)


def chunks(count: int) -> Iterator[Set[int]]:
    """So many things, all at once, in halves, in quarters, and so on down to each by itself."""
    size = count
    while size:
        yield from (set(range(at, min(at + size, count))) for at in range(0, count, size))
        size = (size + 1) // 2 if size > 1 else 0


def pieces(items: Iterator[Set[int]], size: int) -> Iterator[List[Set[int]]]:
    """These things, so many at a time, of which no more are made than are asked for."""
    return iter(lambda: list(islice(items, size)), [])


class Shrinking:
    """A session while it shrinks. `tried` counts the sessions that were played."""

    def __init__(self, programs: Programs, entry: Entry, way: Way, progress: Callable[[int, Entry], None]) -> None:
        self.programs, self.entry, self.way, self.progress = programs, entry, way, progress
        self.tried = 0
        # what was tried for nothing isn't tried again
        self.trials: Set[Tuple[object, ...]] = set()

    def places_that_part(self, entries: Sequence[Entry]) -> Iterator[int]:
        """Which of these entries the programs part on in this way."""
        for first in range(0, 0 if self.programs.is_over() else len(entries), MOST_AT_ONCE):
            some = entries[first : first + MOST_AT_ONCE]
            for place, (entry, (one, other)) in enumerate(zip(some, self.programs.pairs(some)), first):
                self.tried += 1
                if self.programs.way(entry, one, other, self.way) == self.way:
                    yield place

    def leave_out(self, stage: Stage) -> bool:
        """Leaves out what a stage can; answers whether that made the session smaller."""
        if self.programs.is_over():
            return False
        before, (count, without) = self.entry, stage(self.entry)
        trial = stage, before.source, tuple(before.inputs)
        if trial in self.trials:
            return False
        self.trials.add(trial)
        gone: Set[int] = set()
        is_less = True
        while is_less:
            # where something went, more of the rest may
            known = len(gone)
            for some in takewhile(lambda _: not self.programs.is_over(), pieces(chunks(count), MOST_AT_ONCE)):
                gone = self.gone_with([it for it in some if not it <= gone], gone, without)
            is_less = len(gone) > known
        if size_of(without(gone)) < size_of(before):
            self.entry = without(gone)
            self.progress(self.tried, self.entry)
        return self.entry is not before

    def gone_with(self, parts: Sequence[Set[int]], gone: Set[int], without: Callable[[Set[int]], Entry]) -> Set[int]:
        """What is gone with some of these parts: with as many together as can be, of those that can each by itself. Where an engine fails each
        takes a call, so the first is taken."""
        able = self.places_that_part([without(gone | it) for it in parts])
        if fails(self.way):
            return gone | next((parts[it] for it in able), set())
        joined: List[Set[int]] = []
        for place in able:
            joined.append(parts[place] | (joined[-1] if joined else gone))
        if len(joined) < 2:
            return joined[0] if joined else gone
        together = list(self.places_that_part([without(it) for it in joined]))
        # a program that doesn't show the same each time may part on none of them
        return joined[together[-1]] if together else gone

    def leave_out_a_pair(self) -> bool:
        """Leaves out two inputs, of which neither can go alone, the last first; answers whether there were two."""
        count, without = of_inputs(self.entry)
        trial = "pairs", self.entry.source, tuple(self.entry.inputs)
        if trial in self.trials or self.programs.is_over():
            return False
        self.trials.add(trial)
        last = range(count - 1, max(-1, count - 1 - MOST_PAIRED), -1)
        pairs = sorted(combinations(last, 2), key=lambda it: it[0] - it[1])
        found = next(self.places_that_part([without(set(it)) for it in pairs]), None)
        if found is not None:
            self.entry = without(set(pairs[found]))
            self.progress(self.tried, self.entry)
        return found is not None

    def run(self) -> Entry:
        """Leaves out what can be, again and again, since less of one kind lets more of another go: inputs first, then rules, then cells and the rest."""
        for _ in takewhile(lambda _: not self.programs.is_over(), range(MOST_ROUNDS)):
            while self.leave_out(of_inputs) or self.leave_out_a_pair():
                pass
            if not any([self.leave_out(stage) for stage in STAGES]):
                break
        return self.entry


def shrunk(programs: Programs, entry: Entry, way: Way, progress: Callable[[int, Entry], None], seconds: float = inf) -> Tuple[Entry, int]:
    """The smallest entry that is found in so many seconds, and how many sessions were played. One on which an engine hangs shrinks in haste, if it then
    hangs as long as it may."""
    bounded = programs._replace(end=monotonic() + seconds)
    if hangs(way):
        quick = bounded.in_haste()
        # the way names the time that the engine had
        ways = quick.ways([entry])
        shrinking = Shrinking(quick, entry, ways[0] or way, progress)
        small = shrinking.run()
        if programs.ways([small]) == [way]:
            return small, shrinking.tried
    shrinking = Shrinking(bounded, entry, way, progress)
    return shrinking.run(), shrinking.tried


def cut_behind(entry: Entry, divergence: Optional[Divergence], one: Run, other: Run) -> Entry:
    """An entry without the inputs behind the one at which two runs part, or at which an engine fails."""
    if one.close in FAILED or other.close in FAILED:
        shown = [it.frames[-1].at if it.frames else 0 for it in (one, other) if it.close in FAILED]
        return entry._replace(inputs=entry.inputs[: min(shown) + 1])
    taken = [it.at for it in (divergence.one, divergence.other) if it is not None] if divergence else []
    return entry._replace(inputs=entry.inputs[: max(taken)]) if taken else entry
