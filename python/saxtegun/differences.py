"""Where the site may decide otherwise than this replayer: which of the differences of docs/differences.md a session that differs has the form of."""
from __future__ import annotations

import re
from collections import Counter
from functools import lru_cache, reduce
from itertools import islice
from operator import or_
from typing import Dict, FrozenSet, Iterator, List, Mapping, NamedTuple, Optional, Sequence, Tuple

from saxtegun.budget import EXPLAINING
from saxtegun.commands import cut
from saxtegun.descriptions import Words, before, description_of
from saxtegun.games import Game, game_of
from saxtegun.levels import Labels, read_cells
from saxtegun.lines import Run
from saxtegun.sessions import Entry

PAGE = "docs/differences.md"
START = "run_rules_on_level_start"
GAP = "..."
HINT = "the site may decide otherwise: "
MARKS = {"[", "]", "|"}
# So many words of a rule are looked at.
MOST_WORDS = 500
# So many names that rules move are looked at.
MOST_NAMES = 1000
# So many properties on the left of rules are looked at.
MOST_PROPERTIES = 50
# So many other names of a row are looked at.
MOST_BESIDE = 8
# In so many levels of a session it is looked for what is met.
MOST_LEVELS = 20
# A command of a rule behind a comment, in so many letters of a line.
BEHIND_A_COMMENT = re.compile(r"\([^()]*\)\s*(?:again|win|restart|cancel|checkpoint|message|sfx[0-9]+)\b", re.I)
MOST_LETTERS = 1000
COMMANDS = {"again", "win", "restart", "cancel", "checkpoint", "message", *(f"sfx{it}" for it in range(11))}
TURNING = {*"^v<>", "parallel", "perpendicular"}
DIRECTIONS = {"up", "down", "left", "right", "horizontal", "vertical", "orthogonal"}
# The words that may stand before a name in a cell.
BEFORE_A_NAME = {"no", "action", "stationary", "moving", *TURNING, *DIRECTIONS}


class Property(NamedTuple):
    """A property whose members share a layer, in a row on the left of a rule, with the objects that each other name of the row stands for. What stands behind
    `no` is none: all its members are absent, whichever comes first."""

    name: str
    members: FrozenSet[str]
    line: int
    beside: Tuple[FrozenSet[str], ...]

    def may_decide(self, met: Mapping[str, int]) -> bool:
        """Whether it may matter in a level which member comes first: two are met, and nothing else of the row stands there but once, where a row fits once in a
        direction. `met` says how often each name stands there."""
        return sum(it in met for it in self.members) > 1 and all(sum(met.get(it, 0) for it in its) > 1 for its in self.beside)


def rules_of(source: str) -> Iterator[Words]:
    return EXPLAINING.each(description_of(source).rules)


def sides_of(line: Words) -> Tuple[Sequence[str], Sequence[str]]:
    """The words of a rule left and right of its arrow, as far as they are looked at."""
    words = line.words[:MOST_WORDS]
    left = before("->", words)
    return left, words[len(left) + 1 :]


def rows_in(words: Sequence[str]) -> Iterator[List[str]]:
    """The names in each row of a side that stand behind no `no`, with its marks and other words."""
    row: List[str] = []
    for above, word in zip(("", *words), words):
        if above != "no":
            row.append(word)
        if word == "]":
            yield row
            row = []


class Members:
    """The objects that names of a game stand for. Each name is gone through once, since many rows may have one name of many objects."""

    def __init__(self, game: Game) -> None:
        self.game = game
        self.known: Dict[str, FrozenSet[str]] = {}

    def of(self, name: str) -> FrozenSet[str]:
        if name not in self.known:
            self.known[name] = frozenset(self.game.members(name))
        return self.known[name]


def properties_in(row: Sequence[str], line: int, known: Members) -> Iterator[Property]:
    """The properties of one layer in a row."""
    game, of = known.game, {it: known.of(it) for it in EXPLAINING.each(dict.fromkeys(row))}
    names = [] if GAP in row else [it for it in of if of[it]][:MOST_BESIDE]
    for name, members in of.items():
        if game.is_property(name) and len(members) > 1 and len({game.layers.get(it) for it in members}) == 1:
            yield Property(name, members, line, tuple(of[it] for it in names if it != name))


@lru_cache(maxsize=64)
def properties_of(source: str) -> Tuple[Property, ...]:
    """The properties of one layer that stand on the left of rules: the first of them, since a source may have many."""
    known = Members(game_of(source))
    rows = ((row, line.number) for line in rules_of(source) for row in rows_in(sides_of(line)[0]))
    return tuple(islice((it for row, number in rows for it in properties_in(row, number, known)), MOST_PROPERTIES))


@lru_cache(maxsize=64)
def keywords_of(source: str) -> FrozenSet[str]:
    """The first words of the lines of the prelude."""
    return frozenset(it.keyword for it in description_of(source).prelude)


def is_behind_a_comment(line: Words, written: str) -> bool:
    """Whether a comment stands directly before a command of a rule that has both."""
    has_both = bool(COMMANDS & set(sides_of(line)[1])) and len(line.text) < len(written.strip())
    return has_both and bool(BEHIND_A_COMMENT.search(written[:MOST_LETTERS].partition("->")[2]))


@lru_cache(maxsize=64)
def rule_told(source: str) -> str:
    """A form of a rule that the site reads otherwise, or nothing."""
    is_late = False
    for line in rules_of(source):
        if line.joins and is_late and not line.is_late:
            return f"the rule on line {line.number} has `+` below a late rule: on the site it isn't late"
        is_late = line.is_late or (line.joins and is_late)
    raw = source.split("\n")
    for line in rules_of(source):
        if is_behind_a_comment(line, raw[line.number - 1]):
            return f"a comment stands before a command on line {line.number}: on the site it ends the rule"
    return ""


@lru_cache(maxsize=64)
def scan_told(source: str) -> str:
    """A rule of several rows of one cell, which the site scans in its own direction, or nothing."""
    for line in rules_of(source):
        left, right = sides_of(line)
        is_turned = bool(TURNING & {*left, *right}) or bool(DIRECTIONS & set(before("[", left)))
        if "|" not in left and left.count("[") > 1 and "[" in right and is_turned:
            return f"the rows of the rule on line {line.number} have one cell: on the site it takes places in its own direction, not column by column"
    return ""


class Layers:
    """The layers of the objects that names of a game stand for, as the bits of a number: that of a layer is at its number plus one, that of no layer
    is the first. Each name is gone through once, since many words of rules may be one name of many objects."""

    def __init__(self, game: Game) -> None:
        self.game = game
        self.known: Dict[str, int] = {}

    def of(self, name: str) -> int:
        if name not in self.known:
            numbers = {self.game.layers.get(it, -1) + 1 for it in EXPLAINING.each(self.game.members(name))}
            self.known[name] = reduce(or_, (1 << it for it in numbers), 0)
        return self.known[name]

    def of_cell(self, cell: Sequence[str]) -> Dict[str, int]:
        """The names of a cell that have no word before them, each with its layers; and under the empty name the layers of all."""
        found = {"": 0}
        above = ""
        for word in EXPLAINING.each(cell):
            if word not in BEFORE_A_NAME:
                found[""] |= self.of(word)
                if not above:
                    found[word] = self.of(word)
            above = word if word in BEFORE_A_NAME else ""
        return found


def cells_in(words: Sequence[str]) -> List[List[str]]:
    """The cells of the rows of a side, by their words."""
    cells: List[List[str]] = []
    is_in = False
    for word in words:
        if word in ("[", "|"):
            cells.append([])
            is_in = True
        elif word == "]":
            is_in = False
        elif is_in:
            cells[-1].append(word)
    return cells


def moved_layers(source: str, layers: Layers) -> int:
    """The layers in which rules move something, and that of the player."""
    names = ["player"]
    for line in rules_of(source):
        words = [it for it in sides_of(line)[1] if it not in MARKS]
        names += [name for word, name in zip(words, words[1:]) if word in BEFORE_A_NAME and word not in ("no", "stationary")]
    return reduce(or_, map(layers.of, names[:MOST_NAMES]))


@lru_cache(maxsize=64)
def placed_told(source: str) -> str:
    """A rule that places an object without a word where its left cell has nothing of its layer, and something may move; or nothing."""
    layers = Layers(game_of(source))
    moved = moved_layers(source, layers)
    for line in rules_of(source):
        if line.is_late:
            continue
        for left, right in zip(*map(cells_in, sides_of(line))):
            there = layers.of_cell(left)[""]
            for name, of in layers.of_cell(right).items():
                if name and of & moved and not of & there:
                    return f"the rule on line {line.number} places `{cut(name)}`, which takes over what moves in its layer: on the site it is still"
    return ""


def start_told(entry: Entry, run: Run) -> str:
    """That a level was won by its first tick, or nothing."""
    is_won = any(it.kind == "load" and (it.at == 0 or before.kind == "load") for before, it in zip(run.frames, run.frames[1:]))
    return "a level was won by its first tick: on the site that tick wins nothing" if is_won and START in keywords_of(entry.source) else ""


def names_met(run: Run) -> Iterator[Mapping[str, int]]:
    """The names in each level that a session begins or loads, and how often each stands there."""
    for frame in EXPLAINING.each(islice((it for it in run.frames if it.kind in ("start", "load")), MOST_LEVELS)):
        labels = Labels()
        counts = Counter(read_cells(frame.level, labels) or [])
        met: Counter[str] = Counter()
        for label, count in counts.items():
            met.update(dict.fromkeys(labels.names[label], count))
        yield met


def property_told(entry: Entry, run: Run) -> str:
    """A property of which it may have mattered which member comes first, or nothing."""
    properties = properties_of(entry.source)
    for met in names_met(run) if properties else ():
        for it in EXPLAINING.each(properties):
            if it.may_decide(met):
                return f"`{cut(it.name)}` in the rule on line {it.line} stands for objects of one layer: on the site the first place counts, not the first member"
    return ""


def input_told(entry: Entry) -> str:
    """An input that the site heeds not, or nothing."""
    for word in ("undo", "restart"):
        if word in entry.inputs and f"no{word}" in keywords_of(entry.source):
            return f"the game has `no{word}`: on the site the {word} of this session does nothing"
    return ""


def likely(entry: Entry, run: Run) -> Optional[str]:
    """The difference that a session has most likely met, in a sentence, or None."""
    told = input_told(entry) or start_told(entry, run) or property_told(entry, run) or rule_told(entry.source) or scan_told(entry.source) or placed_told(entry.source)
    return f"{HINT}{told} ({PAGE})" if told else None
