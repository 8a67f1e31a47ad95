"""What can be left out of an entry: its inputs, and of its source rules, levels, objects and whatever else stands in lines.

A stage says how many things of a kind there are, and makes the entry without some of them. Nothing here asks whether what is left is still
a game: it is played to see."""
from __future__ import annotations

from typing import Callable, Dict, Iterable, List, Sequence, Set, Tuple

from saxtegun.commands import fold
from saxtegun.descriptions import SECTIONS, Definition, Drawn, Line, Paragraph, Words, description_of
from saxtegun.games import game_of
from saxtegun.sessions import Entry

Without = Callable[[Set[int]], Entry]
Stage = Callable[[Entry], Tuple[int, Without]]


def of_inputs(entry: Entry) -> Tuple[int, Without]:
    return len(entry.inputs), lambda left: entry._replace(inputs=[it for place, it in enumerate(entry.inputs) if place not in left])


def without_lines(source: str, numbers: Set[int], changes: Dict[int, str]) -> str:
    """The source without lines of these numbers, and with others in the place of some."""
    lines = enumerate(source.split("\n"), 1)
    return "\n".join(changes.get(number, text) for number, text in lines if number not in numbers)


def of_lines(section: str) -> Stage:
    """The lines of a section, one by one. Where the first line of a group goes, the next one begins it."""

    def stage(entry: Entry) -> Tuple[int, Without]:
        lines = description_of(entry.source).lines.of(section)

        def without(left: Set[int]) -> Entry:
            numbers = {lines[it].number for it in left}
            heads = heads_of_groups(entry.source, numbers) if section == "rules" else {}
            return entry._replace(source=without_lines(entry.source, numbers, heads))

        return len(lines), without

    return stage


def heads_of_groups(source: str, gone: Set[int]) -> Dict[int, str]:
    """The lines of RULES that begin a group now, since all before them in it are gone."""
    raw, heads = source.split("\n"), {}
    is_headless = False
    for line in description_of(source).rules:
        is_gone = line.number in gone
        if line.joins and is_headless and not is_gone:
            heads[line.number] = raw[line.number - 1].replace("+", " ", 1)
        is_headless = is_gone and (not line.joins or is_headless)
    return heads


def of_loops(entry: Entry) -> Tuple[int, Without]:
    """The loops: their two words go, and their rules stay."""
    pairs: List[Tuple[int, int]] = []
    begin = 0
    for line in description_of(entry.source).rules:
        if line.words == ["startloop"]:
            begin = line.number
        elif line.words == ["endloop"] and begin:
            pairs.append((begin, line.number))
    return len(pairs), lambda left: entry._replace(source=without_lines(entry.source, {number for it in left for number in pairs[it]}, {}))


def of_levels(entry: Entry) -> Tuple[int, Without]:
    """The levels and messages; the entry begins where it began."""
    levels = description_of(entry.source).levels

    def without(left: Set[int]) -> Entry:
        numbers = {number for it in left for number in levels[it].numbers}
        index = entry.index - sum(1 for it in left if it < entry.index)
        return entry._replace(source=without_lines(entry.source, numbers, {}), index=max(0, index))

    return len(levels), without


def of_columns(entry: Entry) -> Tuple[int, Without]:
    """The columns of each level."""
    levels = [it for it in description_of(entry.source).levels if it.rows]
    columns = [(number, column) for number, it in enumerate(levels) for column in range(len(it.rows[0]))]

    def without(left: Set[int]) -> Entry:
        gone: Dict[int, Set[int]] = {}
        for number, column in (columns[place] for place in left):
            gone.setdefault(number, set()).add(column)
        changes: Dict[int, str] = {}
        for number, them in gone.items():
            changes.update(changed_rows(levels[number], lambda row: "".join(letter for at, letter in enumerate(row) if at not in them)))
        return entry._replace(source=without_lines(entry.source, set(), changes))

    return len(columns), without


def changed_rows(level: Drawn, change: Callable[[str], str]) -> Dict[int, str]:
    """The rows of a level that a change makes other ones."""
    rows = {number: (row, change(row)) for number, row in zip(level.numbers, level.rows)}
    return {number: other for number, (row, other) in rows.items() if other != row}


def of_sprites(entry: Entry) -> Tuple[int, Without]:
    sprites = [it.numbers[2:] for it in description_of(entry.source).objects if it.sprite]
    return len(sprites), lambda left: entry._replace(source=without_lines(entry.source, {number for it in left for number in sprites[it]}, {}))


def left_of_definition(it: Definition, gone: Set[str]) -> str:
    """A definition without names that are gone; the empty text where it defines nothing then."""
    left = [name for name in it.right[::2] if fold(name) not in gone]
    return f"{it.left[0]} = {f' {it.right[1]} '.join(left) if len(it.right) > 1 else left[0]}" if left else ""


def left_of_layer(it: Words, gone: Set[str]) -> str:
    """A layer without names that are gone."""
    return ", ".join(name for name in it.as_written() if fold(name) not in gone)


def without_objects(source: str, things: Sequence[Paragraph]) -> str:
    """A source without objects, and without what the legend, the layers and the levels have of them. A letter of a level that drew one draws the background."""
    told, ground = description_of(source), game_of(source).glyph_of(["background"])
    gone = {fold(name) for it in things for name in it.names}
    changes: Dict[int, str] = {}
    for definition in told.legend:
        if not gone.isdisjoint(map(fold, definition.right)):
            changes[definition.number] = left_of_definition(definition, gone)
            gone |= set() if changes[definition.number] else {fold(definition.left[0])}
    changes.update({it.number: left_of_layer(it, gone) for it in told.layers if not gone.isdisjoint(it.words)})
    for level in told.levels:
        changes.update(changed_rows(level, lambda row: "".join(ground or "" if fold(it) in gone else it for it in row)))
    numbers = {number for it in things for number in it.numbers}
    return without_lines(source, numbers | {number for number, text in changes.items() if not text}, changes)


def of_objects(entry: Entry) -> Tuple[int, Without]:
    """The objects, with all that a source has of them."""
    things = [it for it in description_of(entry.source).objects if it.colours]
    return len(things), lambda left: entry._replace(source=without_objects(entry.source, [things[it] for it in left]))


def of_comments(entry: Entry) -> Tuple[int, Without]:
    """All comments and lines that are nothing, as one thing."""
    lines = description_of(entry.source).lines

    def without(left: Set[int]) -> Entry:
        return entry._replace(source=written_lines(lines)) if left else entry

    return 1, without


def written_lines(lines: Iterable[Line]) -> str:
    """A source of lines, with the headings that they need."""
    of: Dict[str, List[str]] = {section: [] for section in SECTIONS}
    for line in lines:
        of[line.section].append(line.text)
    parts = [*of["prelude"]]
    for section in SECTIONS[1:]:
        if of[section] or section not in ("sounds", "rules", "winconditions"):
            parts += [section.upper(), *of[section]]
    return "\n".join(parts) + "\n"


# Inputs, then rules, levels, objects, and then what is left of lines.
STAGES: Tuple[Stage, ...] = (
    of_inputs, of_comments, of_lines("rules"), of_loops, of_lines("winconditions"), of_levels, of_lines("levels"), of_columns,
    of_objects, of_sprites, of_lines("legend"), of_lines("collisionlayers"), of_lines("sounds"), of_lines("prelude"), of_lines("objects"),
)
