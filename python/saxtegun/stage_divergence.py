"""Leads an author to the line of an edit: at which stage of which input two texts of a game first part."""
from __future__ import annotations

import re
from difflib import SequenceMatcher, get_close_matches
from functools import lru_cache
from itertools import zip_longest
from time import monotonic
from typing import Dict, Iterator, List, NamedTuple, Optional, Sequence, Set, Tuple

from saxtegun.budget import EXPLAINING, SECONDS, UsedUp
from saxtegun.commands import plural
from saxtegun.descriptions import description_of
from saxtegun.divergence import Divergence, below_of, divergence_of, is_same_level, sentence_of
from saxtegun.explanations import CELLS_TOLD, cause_told
from saxtegun.lines import Frame, Run
from saxtegun.playing import Engine
from saxtegun.processes import Unanswered
from saxtegun.sessions import Entry
from saxtegun.stage_descriptions import Text, drawn, heading_told, rule_lines, stage_told, where_told
from saxtegun.stages import NAMES, Stage, Stop, Told, stages_of

# So many rule lines that differ are matched with one another by their places, of each text.
MOST_MATCHED = 300
# Of those that then belong to none so many are compared with one another, by so many of their letters.
MOST_COMPARED = 30
MOST_LETTERS = 60
# So many lines of rules are told below a sentence, of each text.
LINES_TOLD = 3
TOO_LONG = "not all stages were looked at, since that took too long"


class Side(NamedTuple):
    """One of two texts of a game, or of two engines over one: how it is called, a session over the text, the text, and what tells the stages (None: ours)."""

    name: str
    entry: Entry
    text: Text
    stages: Optional[str] = None


Sides = Tuple[Side, Side]


@lru_cache(maxsize=2)
def rules_of(source: str) -> Dict[int, str]:
    """The lines of the rules of a source by their numbers, however they are spaced, without comments."""
    return {it.number: " ".join(it.words) for it in description_of(source).rules}


Pairs = List[Tuple[int, int]]


def in_place(one: Sequence[str], other: Sequence[str]) -> Iterator[Tuple[int, int]]:
    """The same lines of two lists, and those that stand in the place of others."""
    for kind, begin, end, at, to in SequenceMatcher(None, one, other, False).get_opcodes():
        if kind == "equal" or (kind == "replace" and end - begin == to - at):
            yield from zip(range(begin, end), range(at, to))
        elif kind == "replace":
            yield from ((it, there) for it in range(begin, end) for there in range(at, to))


def left_by(pairs: Pairs, one: Sequence[str], other: Sequence[str]) -> Tuple[List[int], List[int]]:
    """The places of the lines that belong to none."""
    taken, there = {it for it, _ in pairs}, {it for _, it in pairs}
    return [it for it in range(len(one)) if it not in taken], [it for it in range(len(other)) if it not in there]


def moved(pairs: Pairs, one: Sequence[str], other: Sequence[str]) -> Iterator[Tuple[int, int]]:
    """Of the lines that belong to none those that are the same."""
    left, others = left_by(pairs, one, other)
    there = {other[it]: it for it in reversed(others)}
    yield from ((it, there.pop(one[it])) for it in left if one[it] in there)


def moved_and_edited(pairs: Pairs, one: Sequence[str], other: Sequence[str]) -> Iterator[Tuple[int, int]]:
    """Of the lines that belong to none each with the likest, unless there are many."""
    left, others = left_by(pairs, one, other)
    free = {it: other[it][:MOST_LETTERS] for it in others}
    for it in EXPLAINING.each(left if max(len(left), len(others)) <= MOST_COMPARED else []):
        near = get_close_matches(one[it][:MOST_LETTERS], free.values(), 1)
        if near:
            there = next(number for number, line in free.items() if line == near[0])
            del free[there]
            yield it, there


def matched(one: Sequence[str], other: Sequence[str]) -> Pairs:
    """The places of two lists of lines that belong together."""
    most = min(len(one), len(other))
    first = next((at for at in range(most) if one[at] != other[at]), most)
    last = next((at for at in range(most - first) if one[-1 - at] != other[-1 - at]), most - first)
    middle, others = one[first : len(one) - last], other[first : len(other) - last]
    pairs = list(in_place(middle, others)) if max(len(middle), len(others)) <= MOST_MATCHED else []
    for more in (moved, moved_and_edited):
        pairs += list(more(pairs, middle, others))
    ends = [(len(one) - 1 - at, len(other) - 1 - at) for at in range(last)]
    return [*((at, at) for at in range(first)), *((first + it, first + there) for it, there in pairs), *ends]


@lru_cache(maxsize=2)
def counterparts(old: str, new: str) -> Dict[int, Set[int]]:
    """For each rule line of the old text the lines of the new that it has become."""
    one, other = rules_of(old), rules_of(new)
    numbers, others = list(one), list(other)
    found: Dict[int, Set[int]] = {}
    for left, right in matched(list(one.values()), list(other.values())):
        found.setdefault(numbers[left], set()).add(others[right])
    return found


class Parted(NamedTuple):
    """A pair of stages at which two texts part, None where one has no more; the stage before, which is the same in both; and the lines of the groups that act
    later in this step, in each text."""

    one: Optional[Told]
    other: Optional[Told]
    before: Optional[Stage]
    later: Tuple[List[Stage], List[Stage]]

    @property
    def is_of_all(self) -> bool:
        """Whether only one text has stages."""
        return self.before is None and (self.one is None or self.other is None)


def is_same_stage(one: Optional[Told], other: Optional[Told]) -> bool:
    """Whether two stages do the same, by whichever rules."""
    if not isinstance(one, Stage) or not isinstance(other, Stage):
        return one == other
    if (one.tick, one.name, set(one.commands), set(one.headings)) != (other.tick, other.name, set(other.commands), set(other.headings)):
        return False
    return is_same_level(one.level, other.level)


def blocks_behind(told: Iterator[Told], tick: int) -> List[Stage]:
    """The groups that act in the rest of a step, without their levels."""
    found: List[Stage] = []
    for it in told:
        if it.tick != tick:
            break
        if isinstance(it, Stage) and it.is_block:
            found.append(it._replace(level="", headings=()))
    return found


def in_time(told: Iterator[Told], end: float) -> Iterator[Told]:
    """Stages as long as there is time. Refused then: there may be more of them than are read soon."""
    for it in told:
        if monotonic() > end:
            raise Unanswered(TOO_LONG)
        yield it


def parted_at(sides: Sides, at: int, engine: Engine, end: float) -> Optional[Parted]:
    """Where the stages of an input part over two texts; None where they are the same. Refused where that isn't known in time."""
    one, other = (in_time(stages_of(it.entry, at, engine._replace(stages=it.stages)), end) for it in sides)
    before: Optional[Stage] = None
    for left, right in zip_longest(one, other):
        if not is_same_stage(left, right):
            later = [blocks_behind(rest, it.tick) if it is not None else [] for rest, it in ((one, left), (other, right))]
            return Parted(left, right, before, (later[0], later[1]))
        before = left if isinstance(left, Stage) else before
    return None


class Led(NamedTuple):
    """At which stage two texts of a game part: a sentence, the rule lines that it is about, and what is left of it in cells and letters."""

    sentence: str
    rules: List[str]
    drawing: List[str]


def does_told(stage: Stage) -> str:
    """What a group does."""
    return "acts" if stage.is_changed else f"gives {', '.join(stage.commands)}"


class Telling:
    """Tells at which stage two texts of a game part."""

    def __init__(self, sides: Sides, at: int, parted: Parted) -> None:
        self.sides, self.at, self.parted = sides, at, parted
        self.old, self.new = (it.text.source for it in sides)
        self.become = counterparts(self.old, self.new)

    def told(self) -> Led:
        one, other = self.parted.one, self.parted.other
        for number, it in enumerate((one, other)):
            if isinstance(it, Stop):
                return self.stopped(number, it)
        if isinstance(one, Stage) and isinstance(other, Stage) and one.tick == other.tick:
            return self.of_stages(one, other)
        number, more = (0, one) if isinstance(one, Stage) and (other is None or one.tick > other.tick) else (1, other)
        assert isinstance(more, Stage)
        return Led(f"{where_told(self.sides[number].entry, self.at, more.tick)}: is taken in {self.name(number)}, not in {self.name(1 - number)}", [], [])

    def of_stages(self, one: Stage, other: Stage) -> Led:
        """Where they part in a step that both take."""
        places = NAMES.index(one.name), NAMES.index(other.name)
        if places[0] != places[1]:
            number = 0 if places[0] < places[1] else 1
            return self.alone(number, (one, other)[number])
        if not one.is_block or self.is_counterpart(one, other):
            return self.both(one, other)
        alone = [number for number, it in enumerate((one, other)) if not self.acts_in(1 - number, it)]
        if alone:
            return self.apart((one, other), alone)
        behind = stage_told(other, self.new)
        return Led(f"{self.named(0, one)}: acts here in {self.name(0)}, in {self.name(1)} behind the {behind}", self.rules(0, one), [])

    def apart(self, stages: Tuple[Stage, Stage], alone: Sequence[int]) -> Led:
        """That groups act in one text, of these numbers, and not in the other: first one that only one text has. One that both have isn't blamed alone: what acts
        in its place is told too."""
        first = min(alone, key=lambda number: self.is_in_both(number, stages[number]))
        led, second = self.alone(first, stages[first]), 1 - first
        if len(alone) == 1 and not self.is_in_both(first, stages[first]):
            return led
        where = f"not in {self.name(first)}" if second in alone else "in its place"
        what = f"{stage_told(stages[second], self.sides[second].text.source)} {does_told(stages[second])} in {self.name(second)}, {where}"
        more = [it for it in self.rules(second, stages[second]) if it not in led.rules]
        return Led(f"{led.sentence}; the {what}", [*led.rules, *more], led.drawing)

    def alone(self, number: int, stage: Stage) -> Led:
        """That a group acts in one text and not in the other."""
        both = ", though both have it" if self.old != self.new and self.is_in_both(number, stage) else ""
        sentence = f"{self.named(number, stage)}: {does_told(stage)} in {self.name(number)}, not in {self.name(1 - number)}{both}"
        return Led(sentence, self.rules(number, stage), drawn(stage, self.parted.before, self.sides[number].text))

    def both(self, one: Stage, other: Stage) -> Led:
        """In what two stages differ that are the same part of a step."""
        acts = "" if not one.is_block else "acts in both, edited: " if self.is_edited(one.lines, other.lines) else "acts in both: "
        cells = below_of(Divergence(0, Frame(0, "", one.level), Frame(0, "", other.level)), self.sides[1].entry, self.sides[1].text.order)
        drawing = self.headings(one, other) if is_same_level(one.level, other.level) else cells
        return Led(f"{self.named(0, one)}: {acts}{self.difference(one, other)}", self.rules(0, one) if one.is_block else [], drawing)

    def stopped(self, number: int, stop: Stop) -> Led:
        """That a step stops in one text, with the group that acts there in the other."""
        where, there = where_told(self.sides[number].entry, self.at, stop.tick), self.parted[1 - number]
        rules = self.rules(1 - number, there) if isinstance(there, Stage) and there.is_block else []
        return Led(f"{where}: behind the same stages {self.name(number)} stops: {cause_told(stop.cause)} ({stop.cause})", rules, [])

    def name(self, number: int) -> str:
        return self.sides[number].name

    def named(self, number: int, stage: Told) -> str:
        """Where a stage is, and what it is called."""
        return f"{where_told(self.sides[number].entry, self.at, stage.tick)}, {stage_told(stage, self.sides[number].text.source)}"

    def is_counterpart(self, one: Stage, other: Stage) -> bool:
        """Whether a group of the new text is what one of the old has become."""
        return one.name == other.name and not set(self.lines_there(0, one.lines)).isdisjoint(other.lines)

    def acts_in(self, number: int, stage: Stage) -> bool:
        """Whether a group of the other text acts in the rest of the step in this one."""
        here = (self.parted.one, self.parted.other)[number]
        rest = [*([here] if isinstance(here, Stage) and here.is_block else []), *self.parted.later[number]]
        there = set(self.lines_there(1 - number, stage.lines))
        return any(it.name == stage.name and not there.isdisjoint(it.lines) for it in rest)

    def rules(self, number: int, stage: Stage) -> List[str]:
        """The lines of a group in its text, and what they are in the other, where that isn't the same."""
        there = self.lines_there(number, stage.lines)
        own = self.rules_in(number, stage.lines)
        if not there:
            return [*own, f"in {self.name(1 - number)} there is no such rule"]
        pair = (stage.lines, there) if number == 0 else (there, stage.lines)
        return [*own, *self.rules_in(1 - number, there)] if stage.lines != there or self.is_edited(*pair) else own

    def is_in_both(self, number: int, stage: Stage) -> bool:
        """Whether both texts have the rule lines of a group of this one."""
        there = self.lines_there(number, stage.lines)
        return bool(there) and not self.is_edited(*((stage.lines, there) if number == 0 else (there, stage.lines)))

    def is_edited(self, lines: Sequence[int], others: Sequence[int]) -> bool:
        """Whether rule lines of the old text are others in the new."""
        old, new = rules_of(self.old), rules_of(self.new)
        return [old.get(it) for it in lines] != [new.get(it) for it in others]

    def lines_there(self, number: int, lines: Sequence[int]) -> Tuple[int, ...]:
        """The lines that rule lines of one text are in the other."""
        if number == 0:
            return tuple(sorted({there for it in lines for there in self.become.get(it, set())}))
        known = set(lines)
        return tuple(sorted(it for it, there in self.become.items() if not known.isdisjoint(there)))

    def rules_in(self, number: int, lines: Sequence[int]) -> List[str]:
        return [f"in {self.name(number)}, {it}" for it in rule_lines(lines, self.sides[number].text, LINES_TOLD)]

    def headings(self, one: Stage, other: Stage) -> List[str]:
        """The pieces that head somewhere in one text alone, a line each."""
        both = set(one.headings) & set(other.headings)
        alone = [(it, number) for number, stage in enumerate((one, other)) for it in stage.headings if it not in both]
        told = [f"{heading_told(it)} in {self.name(number)}, not in {self.name(1 - number)}" for it, number in alone[:CELLS_TOLD]]
        return [*told, f"and {plural(len(alone) - CELLS_TOLD, 'more heading')}"] if len(alone) > CELLS_TOLD else told

    def difference(self, one: Stage, other: Stage) -> str:
        """In what two stages differ."""
        differs = [] if is_same_level(one.level, other.level) else ["the level behind it is another one"]
        if not differs and set(one.headings) != set(other.headings):
            differs.append("pieces head elsewhere")
        if set(one.commands) != set(other.commands):
            given = [f"{', '.join(it.commands) or 'no command'} in {self.name(number)}" for number, it in enumerate((one, other))]
            differs.append(f"gives {', '.join(given)}")
        return "; ".join(differs)


def inputs_to_try(entry: Entry, runs: Tuple[Run, Run], divergence: Optional[Divergence]) -> Tuple[range, range]:
    """Behind which inputs two runs may part in their stages: from where their frames first do or one may have stopped, and else those before it."""
    if divergence is None:
        return range(len(entry.inputs) + 1), range(0)
    last = min([len(entry.inputs), *(it.at for it in (divergence.one, divergence.other) if it is not None)])
    # behind its last frame a run may stop in a step that shows none
    first = min([last, *(run.frames[-1].at if run.frames else 0 for run in runs if run.close == "stopped")])
    return range(first, last + 1), range(first)


def first_parted(sides: Sides, inputs: range, engine: Engine, end: float) -> Optional[Tuple[int, Parted]]:
    """The first of these inputs whose stages part, and where. Refused where that isn't known in time."""
    for at in inputs:
        left = end - monotonic()
        if left <= 0:
            raise Unanswered(TOO_LONG)
        try:
            with EXPLAINING.spent():
                parted = parted_at(sides, at, engine._replace(seconds=min(left, engine.seconds or left)), end)
        except UsedUp:
            raise Unanswered(TOO_LONG) from None
        if parted is not None:
            return at, parted
    return None


def first_divergence(sides: Sides, runs: Tuple[Run, Run], divergence: Optional[Divergence], engine: Engine, seconds: float) -> Optional[Tuple[int, Parted]]:
    """At which input two sides first part in their stages, and where; None where none does. Refused where that isn't known in so many seconds."""
    end = monotonic() + min(seconds, EXPLAINING.seconds_left())
    likely, before = inputs_to_try(sides[1].entry, runs, divergence)
    found = first_parted(sides, likely, engine, end)
    if found is None or found[1].is_of_all:
        # an input that only one text takes follows from what the texts did before it
        found = first_parted(sides, before, engine, end) or found
    return found


def rules_that_part(sides: Sides, runs: Tuple[Run, Run], divergence: Optional[Divergence], engine: Engine, seconds: float) -> Tuple[str, ...]:
    """Where two sides first part in their stages, by the name of the stage and the texts of its rules, wherever these stand; nothing where none does."""
    found = first_divergence(sides, runs, divergence, engine, seconds)
    if found is None:
        return ()
    names, rules = [], set()
    for side, it in zip(sides, (found[1].one, found[1].other)):
        names.append(it.name if isinstance(it, Stage) else it.cause if isinstance(it, Stop) else "")
        rules |= {rules_of(side.entry.source).get(line, "") for line in (it.lines if isinstance(it, Stage) else ())}
    return (*names, *sorted(rules))


def stage_divergence_of(sides: Sides, runs: Tuple[Run, Run], divergence: Optional[Divergence], engine: Engine, seconds: float) -> Optional[Led]:
    """At which stage two texts part; None where none does. Refused where that isn't known in so many seconds."""
    found = first_divergence(sides, runs, divergence, engine, seconds)
    return Telling(sides, *found).told() if found else None


NO_STAGE = "no stage parts: what differs is in no rule (win conditions, levels, objects)"


def divergence_told(sides: Sides, runs: Tuple[Run, Run], engine: Engine) -> List[str]:
    """Where two texts part, in a sentence, and lines below it; nothing where they show the same by the same stages."""
    divergence = divergence_of(*runs)
    led = stage_divergence_of(sides, runs, divergence, engine, SECONDS)
    frames = f"the frames part at {sentence_of(divergence, *runs, sides[1].entry)}" if divergence else "the frames are the same"
    if led is not None:
        return [led.sentence, frames, *led.rules, *led.drawing]
    return [frames, NO_STAGE] if divergence else []
