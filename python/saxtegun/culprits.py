"""What in a source is the culprit of a fault: the name that isn't there, the keyword that isn't played, the lines of a loop."""
from __future__ import annotations

import re
from difflib import get_close_matches
from typing import Callable, Iterable, List, NamedTuple, Optional, Set

from saxtegun.commands import cut, fold
from saxtegun.descriptions import Description, before, description_of
from saxtegun.games import CLOCK, game_of

OUTSIDE = ("random", "randomdir", "rigid")
MARKS = set("[ ] | -> + ...".split())
RULE_WORDS = set(
    "up down left right late rigid random randomdir horizontal vertical orthogonal moving stationary perpendicular parallel action no "
    "> < ^ v startloop endloop cancel checkpoint restart win again message all any some on and or".split()
)
MOST_LINES = 8
# The sections that must be there.
NEEDED = ("objects", "legend", "collisionlayers", "levels")
# So many words of a line are told, and for each the nearest name is looked for by so many letters of it, among so many names.
MOST_WORDS = 20
MOST_LETTERS = 40
MOST_NAMES = 300


def is_command(word: str) -> bool:
    return bool(re.fullmatch(r"sfx[0-9]+", word))


def names_in(told: Description) -> Set[str]:
    return {fold(name) for it in told.objects for name in it.names} | {fold(it.left[0]) for it in told.legend}


def words_at(told: Description, number: int) -> List[str]:
    """The words of a line in which names may stand, as they are written there."""
    for it in told.legend:
        if it.number == number:
            return it.right
    line = next((it for it in (*told.layers, *told.rules, *told.wins) if it.number == number), None)
    return line.as_written()[: len(before("message", line.words))] if line else []


def unknown_in(told: Description, number: int) -> List[str]:
    """The words of a line that are neither a name nor a word of the language, as they stand there."""
    known = names_in(told) | RULE_WORDS | MARKS
    return [word for word in dict.fromkeys(words_at(told, number)) if fold(word) not in known and not is_command(fold(word))]


def nearest(word: str, names: Iterable[str]) -> str:
    """The name that is nearest to a word, or nothing. Comparing takes the product of their lengths, so their beginnings are compared, and of many
    names those whose length is nearest."""
    known = sorted(names)
    if len(known) > MOST_NAMES:
        known = sorted(sorted(known, key=lambda it: abs(len(it) - len(word)))[:MOST_NAMES])
    begins = {it[:MOST_LETTERS]: it for it in known}
    near = get_close_matches(word[:MOST_LETTERS], begins, 1, 0.6)
    return begins[near[0]] if near else ""


def unknown_told(source: str, number: int) -> str:
    """Which name isn't there, and the nearest one that is: behind the words of a fault, or nothing."""
    told = description_of(source)
    names = names_in(told)

    def word_told(word: str) -> str:
        near = nearest(fold(word), names)
        return f"`{cut(word)}`" + (f" (near: `{cut(near)}`)" if near else "")

    return listed(unknown_in(told, number), word_told)


def listed(words: Iterable[str], told: Callable[[str], str] = lambda word: f"`{cut(word)}`") -> str:
    """The first words of a stranger behind the words of a fault, or nothing."""
    known = list(dict.fromkeys(words))
    more = f" and {len(known) - MOST_WORDS} more" if len(known) > MOST_WORDS else ""
    return f": {', '.join(map(told, known[:MOST_WORDS]))}{more}" if known else ""


def glyphs_told(source: str, number: int) -> str:
    """The letters of a row of a level that draw nothing, as far as the row is read: a level is as wide as its first row."""
    game = game_of(source)
    for level in description_of(source).levels:
        if level.rows and number in level.numbers:
            row = level.rows[level.numbers.index(number)][: len(level.rows[0])]
            return listed(it for it in row if not game.draws(fold(it)))
    return ""


def again_told(source: str, number: int) -> str:
    """The names of a line that are there already, in it or above it."""
    told = description_of(source)
    names: Set[str] = set()
    for at, words in sorted([*((it.numbers[0], it.names) for it in told.objects), *((it.number, it.left) for it in told.legend)]):
        again: List[str] = []
        for word in words:
            if fold(word) in names:
                again.append(word)
            names.add(fold(word))
        if at == number:
            return listed(again)
    return ""


def layerless_told(source: str, number: int) -> str:
    """The object whose name line this is."""
    return listed(it.names[0] for it in description_of(source).objects if it.numbers[0] == number)


def missing_told(source: str) -> str:
    """Which of the two names that must be there is no object and no property."""
    told = description_of(source)
    objects = {fold(name) for it in told.objects for name in it.names}
    definitions = {fold(it.left[0]): it.right for it in reversed(told.legend)}

    def is_there(name: str) -> bool:
        way: Set[str] = set()
        while name not in objects and len(definitions.get(name, ())) == 1 and name not in way:
            way.add(name)
            name = fold(definitions[name][0])
        return name in objects or fold("".join(definitions.get(name, [])[1:2])) == "or"

    return listed(it for it in ("background", "player") if not is_there(it))


def fault_told(code: str, source: str, number: int) -> str:
    """What of a line is the culprit of a fault, in words that go on behind its sentence, or nothing."""
    if code == "Unknown":
        return unknown_told(source, number)
    if code == "OutsideProfile":
        found = outside_told(source, number)
        return f"; here it is {found}" if found else ""
    if code == "BadGlyph":
        return glyphs_told(source, number)
    if code == "Duplicate":
        return again_told(source, number)
    if code == "NoLayer":
        return layerless_told(source, number)
    if code == "Section" and number == 0:
        headings = description_of(source).lines.headings
        return listed(it.upper() for it in NEEDED if it not in headings)
    return missing_told(source) if code == "Missing" else ""


def outside_told(source: str, number: int) -> str:
    """The keyword of a line that isn't played here, or the row with two `...`."""
    told = description_of(source)
    words = next((before("message", it.words) for it in told.rules if it.number == number), [])
    found = [it.keyword for it in told.prelude if it.number == number and it.keyword == CLOCK] + [it for it in OUTSIDE if it in words]
    return f"`{found[0]}`" if found else "a row with two `...`" if list(words).count("...") > 1 else ""


class Repeated(NamedTuple):
    """What is repeated until it changes nothing: a loop, a group of several rules, or a rule by itself; by its lines, and whether it is in a loop."""

    first: int
    last: int
    is_loop: bool
    is_in_loop: bool

    def __str__(self) -> str:
        if self.is_loop:
            return f"the loop of lines {self.first} to {self.last}"
        return f"the rule on line {self.first}" if self.first == self.last else f"the group of lines {self.first} to {self.last}"


def repeated_in(source: str) -> List[Repeated]:
    """The loops, groups and rules of a source, a loop behind what stands in it."""
    found: List[Repeated] = []
    begin: Optional[int] = None
    group: List[int] = []

    def close() -> None:
        if group:
            found.append(Repeated(group[0], group[-1], False, begin is not None))
        group.clear()

    for line in description_of(source).rules:
        if not line.joins:
            close()
        if line.words == ["startloop"]:
            begin = line.number
        elif line.words == ["endloop"] and begin is not None:
            found.append(Repeated(begin, line.number, True, False))
            begin = None
        else:
            group.append(line.number)
    close()
    return found


def loops_told(source: str) -> str:
    """In what a session hung, where there is one thing alone that is repeated; else which loops and groups there are."""
    repeated = repeated_in(source)
    if len(repeated) == 1:
        return f"; it is {repeated[0]}"
    loops = [str(it) for it in repeated if it.first < it.last]
    more = f" and {len(loops) - MOST_LINES} more" if len(loops) > MOST_LINES else ""
    return f"; it may be {', '.join(loops[:MOST_LINES])}{more}, or a rule by itself" if loops else ""
