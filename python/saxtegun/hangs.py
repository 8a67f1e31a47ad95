"""In which input, and in which loop, group or rule a session hung: found by playing it again from the level before, with ever more of its rules."""
from __future__ import annotations

from bisect import bisect_left, bisect_right
from typing import AbstractSet, Dict, FrozenSet, List, NamedTuple, Optional, Sequence, Tuple

from saxtegun.budget import EXPLAINING, NOT_LOOKED_AT, UsedUp
from saxtegun.commands import Refused
from saxtegun.culprits import Repeated, repeated_in
from saxtegun.explanations import input_told, stop_of
from saxtegun.descriptions import Line, description_of
from saxtegun.games import game_of, written_lines
from saxtegun.levels import Labels, each_once, in_rows, read_cells, width_of
from saxtegun.lines import Run
from saxtegun.playing import Engine, runs_within
from saxtegun.processes import Unanswered
from saxtegun.sessions import Entry, Input, Sessions

HUNG = "loop-limit"
# Of so many sessions it is found out by playing in what they hung.
MOST_HUNG = 20
# The first of the letters that draw cells: none that anybody writes.
FIRST_LETTER = 0xE000
START_OPTION = "run_rules_on_level_start"
# The sections that stay as they are where a session is played again with other rules and another level.
BESIDE_RULES = ("prelude", "objects", "legend", "collisionlayers", "winconditions")


class Player(NamedTuple):
    """How entries of some sessions are played, as long as there is time to explain."""

    of: Sessions
    engine: Engine

    def runs(self, entries: Sequence[Entry]) -> List[Run]:
        if not EXPLAINING.is_left():
            raise Unanswered(NOT_LOOKED_AT)
        with EXPLAINING.spent():
            return list(runs_within(entries, self.of, self.engine, EXPLAINING.seconds_left()))


class Hung(NamedTuple):
    """The input in which a session hung, None at the start; and what is run then from the last level that it shows, that input or a tick behind it."""

    number: Optional[int]
    step: Input


def hung_at(entry: Entry, run: Run, player: Player) -> Hung:
    """Where a session hung. It shows the level before; whether the input behind that was begun, a copy without it tells."""
    taken = run.frames[-1].at
    is_tick = taken == len(entry.inputs) or player.runs([entry._replace(inputs=entry.inputs[:taken])])[0].cause == HUNG
    if is_tick:
        return Hung(taken - 1 if taken else None, "tick")
    return Hung(taken, entry.inputs[taken])


class Thing(NamedTuple):
    """What is repeated in a step, with the lines that it takes: a loop's are its two words and its early rules, or its late ones. `inner` are its
    groups."""

    name: str
    lines: FrozenSet[int]
    inner: "Tuple[Thing, ...]" = ()


def things_of(source: str) -> List[Thing]:
    """What is repeated in a step, in the order in which it is run: all that is early, and then all that is late."""
    rules = {it.number: it for it in description_of(source).rules}
    numbers, repeated = list(rules), repeated_in(source)

    def thing(it: Repeated) -> Thing:
        return Thing(f"it is {it}", frozenset(numbers[bisect_left(numbers, it.first) : bisect_right(numbers, it.last)]))

    def is_late(it: Repeated) -> bool:
        return rules[it.first].is_late

    # a loop stands behind its groups, of which none is in two loops
    groups: Dict[int, List[Repeated]] = {}
    inside: List[Repeated] = []
    for it in repeated:
        if it.is_loop:
            groups[it.first], inside = inside, []
        elif it.is_in_loop:
            inside.append(it)
    found: List[Thing] = []
    for wanted in (False, True):
        for it in repeated:
            inner = tuple(thing(group) for group in groups.get(it.first, []) if it.is_loop and is_late(group) == wanted)
            if it.is_loop and inner:
                found.append(Thing(f"it is in {it}", frozenset({it.first, it.last}).union(*(group.lines for group in inner)), inner))
            elif not it.is_loop and not it.is_in_loop and is_late(it) == wanted:
                found.append(thing(it))
    return found


def source_from(source: str, rows: Sequence[Sequence[Tuple[str, ...]]], kept: AbstractSet[int]) -> str:
    """The source with one level, drawn by letters of its own, and of its rules those of these lines."""
    letters: Dict[Tuple[str, ...], str] = {}
    drawn = each_once(rows, lambda names: letters.setdefault(names, chr(FIRST_LETTER + len(letters))))
    told = description_of(source)
    options = {it.number for it in told.prelude if it.keyword == START_OPTION}
    kept_lines = [it for it in EXPLAINING.each(told.lines) if (it.section in BESIDE_RULES and it.number not in options) or it.number in kept]
    legend = [Line(0, "legend", f"{letter} = {' and '.join(names)}") for names, letter in letters.items()]
    return "\n".join(written_lines([*kept_lines, *legend, *(Line(0, "levels", "".join(row)) for row in drawn)])) + "\n"


def rows_before(run: Run, source: str, order: str) -> Optional[List[List[Tuple[str, ...]]]]:
    """The last level that a run shows, row by row; None where it can't be drawn as it is, since a cell has nothing of the background's layer."""
    labels = Labels()
    text = run.frames[-1].level
    cells = read_cells(text, labels)
    grounds = game_of(source).grounds
    if not cells or any(grounds.isdisjoint(labels.names[it]) for it in set(cells)):
        return None
    return [[labels.names[it] for it in row] for row in in_rows(order, width_of(text, len(cells)), cells)]


class Step(NamedTuple):
    """A step from a level, and how it is played with some of a source's rules."""

    entry: Entry
    rows: Sequence[Sequence[Tuple[str, ...]]]
    step: Input
    player: Player

    def hangs_with(self, kept: FrozenSet[int]) -> Optional[bool]:
        """Whether the step hangs with these rules alone; None where they can't be played."""
        source = source_from(self.entry.source, self.rows, kept)
        run = self.player.runs([self.entry._replace(source=source, inputs=[self.step], level="", index=0)])[0]
        # in the step itself, which shows nothing then, and not in what would follow it
        return run.cause == HUNG and len(run.frames) == 1 if run.frames else None

    def first_that_hangs(self, before: FrozenSet[int], things: Sequence[Thing]) -> Optional[int]:
        """The first of these things with which the step hangs, each behind those before it; None where there is none, or it isn't sure. What hangs
        with some of them hangs with more behind, so half of those that are left are asked for at a time."""
        low, high = 0, len(things) - 1
        if self.hangs_with(before.union(*(it.lines for it in things))) is not True:
            return None
        while low < high:
            middle = (low + high) // 2
            hangs = self.hangs_with(before.union(*(it.lines for it in things[: middle + 1])))
            if hangs is None:
                return None
            low, high = (low, middle) if hangs else (middle + 1, high)
        return low


def hung_in(entry: Entry, run: Run, step: Input, player: Player) -> str:
    """In what it hung, in words, or nothing where that isn't sure: the first thing such that all before it comes to rest, and with it the step hangs.
    In a loop it is a group where that hangs in the first pass; else the loop, or a group in a later pass."""
    rows = rows_before(run, entry.source, player.engine.order)
    things = things_of(entry.source)
    if rows is None or not things:
        return ""
    of = Step(entry, rows, step, player)
    first = of.first_that_hangs(frozenset(), things)
    if first is None:
        return ""
    thing = things[first]
    before: FrozenSet[int] = frozenset().union(*(it.lines for it in things[:first]))
    inner = of.first_that_hangs(before, thing.inner) if thing.inner else None
    return thing.name if inner is None else thing.inner[inner].name


class Found(NamedTuple):
    """The input in which a session hung, None at the start, and where and in what it hung, in words that go on behind its sentence."""

    number: Optional[int]
    told: str


def hung_of(entry: Entry, run: Run, player: Player) -> Optional[Found]:
    """Where and in what a session hung, or None where it did not, or that isn't found out."""
    if run.cause != HUNG or not run.frames:
        return None
    hung: Optional[Hung] = None
    try:
        with EXPLAINING.spent():
            hung = hung_at(entry, run, player)
            name = hung_in(entry, run, hung.step, player)
    except (Unanswered, UsedUp):
        name = f"in what is {NOT_LOOKED_AT}"
    except Refused:
        # the session was played, and what is tried beside it must not take its answer away
        return None
    if hung is None:
        return Found(stop_of(entry, run), f"; where is {NOT_LOOKED_AT}")
    where = " at the start" if hung.number is None else f" at input {hung.number} ({input_told(entry.inputs[hung.number])})"
    tick = ", in a tick behind it" if hung.step == "tick" and hung.number is not None and entry.inputs[hung.number] != "tick" else ""
    return Found(hung.number, f"{where}{tick}" + (f"; {name}" if name else ""))


class Finder:
    """Finds out in what sessions hung, for the first of them, each once."""

    def __init__(self, sessions: Sessions, engine: Engine) -> None:
        self.player = Player(sessions, engine)
        self.known: Dict[int, Optional[Found]] = {}

    def __call__(self, entry: Entry, run: Run) -> Optional[Found]:
        if run.cause != HUNG or (entry.number not in self.known and len(self.known) >= MOST_HUNG):
            return None
        if entry.number not in self.known:
            self.known[entry.number] = hung_of(entry, run, self.player)
        return self.known[entry.number]

    def told(self, entry: Entry, run: Run) -> str:
        """Where and in what a session hung, in words that go on behind its sentence, or nothing."""
        found = self(entry, run)
        return found.told if found else ""
