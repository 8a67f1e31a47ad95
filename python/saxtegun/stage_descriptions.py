"""A stage of a step in words and in the game's letters: what acted, what changed, and where pieces head."""
from __future__ import annotations

from bisect import bisect_left
from functools import lru_cache
from typing import Dict, List, Mapping, NamedTuple, Optional, Sequence, Tuple, Union

from saxtegun.commands import cut, plural
from saxtegun.culprits import Repeated, repeated_in
from saxtegun.explanations import CELLS_TOLD, STOPS, cell_told, input_told, source_line
from saxtegun.games import Game, game_of
from saxtegun.levels import Labels, in_rows, read_cells, width_of
from saxtegun.sessions import Entry
from saxtegun.stages import END, INPUT, MOVEMENT, AnyTold, Firing, Heading, Stage, Stop, Told
from saxtegun.terminal import lettered

Rows = List[List[Tuple[str, ...]]]
# What has a level behind it.
Acted = Union[Stage, Firing]
ARROWS = {"up": "^", "left": "<", "down": "v", "right": ">", "action": "a"}
# So many combinations of places of a firing are told.
PLACES_TOLD = 8
# So many rule lines of a group or a loop are shown.
LINES_TOLD = 8
UNREADABLE = "the level can't be drawn, since a name of an object in it holds a comma"


class Text(NamedTuple):
    """The text of a game, its file as it is told (nothing where it has none), and in which order levels list their cells."""

    source: str
    path: str
    order: str

    def place(self, number: int) -> str:
        """A line of it, by its number."""
        return f"{self.path}:{number}" if self.path else f"line {number}"


def rows_of(level: str, order: str, labels: Labels) -> Optional[Rows]:
    """The cells of a level row by row, or None where it can't be read back. Those of the same names are one tuple, in all levels of these labels."""
    cells = read_cells(level, labels)
    if not cells:
        return None
    return [[labels.names[it] for it in row] for row in in_rows(order, width_of(level, len(cells)), cells)]


def is_press(entry: Entry, at: int, tick: int) -> bool:
    return tick == 0 and at > 0 and isinstance(entry.inputs[at - 1], int)


def where_told(entry: Entry, at: int, tick: int = 0) -> str:
    """An input by its number and its word, and which step of it this is, where it isn't the first."""
    where = f"input {at - 1} ({input_told(entry.inputs[at - 1])})" if at else "the start"
    return f"{where}, tick {tick}" if tick else where


@lru_cache(maxsize=2)
def loops_in(source: str) -> Tuple[List[int], List[Repeated]]:
    """The loops of a source in their order, none of which is in another, and before them their first lines."""
    loops = [it for it in repeated_in(source) if it.is_loop]
    return [it.first for it in loops], loops


def loop_around(source: str, first: int, last: int) -> Optional[Repeated]:
    """The loop in which these lines stand, or None."""
    begins, loops = loops_in(source)
    place = bisect_left(begins, first)
    return loops[place - 1] if place and last < loops[place - 1].last else None


def block_told(stage: Stage, source: str) -> str:
    """A group, a loop or a rule, by its lines."""
    first, last = min(stage.lines, default=0), max(stage.lines, default=0)
    loop = loop_around(source, first, last)
    if loop is not None:
        return f"{stage.name} loop of lines {loop.first} to {loop.last}"
    return f"{stage.name} rule on line {first}" if first == last else f"{stage.name} group of lines {first} to {last}"


def stage_told(stage: Told, source: str) -> str:
    """What a stage is called."""
    if isinstance(stage, Stop):
        return "the stop"
    return block_told(stage, source) if stage.is_block else {INPUT: "before any rule", MOVEMENT: "the movement", END: "the end"}[stage.name]


def rule_lines(lines: Sequence[int], text: Text, most: int = LINES_TOLD) -> List[str]:
    """Lines of rules as they stand in the text."""
    told = [f"{text.place(it)}: {cut((source_line(text.source, it) or '').strip())}" for it in lines[:most]]
    return [*told, f"and {plural(len(lines) - most, 'more line')}"] if len(lines) > most else told


def changed_cells(before: Rows, after: Rows) -> List[Tuple[int, int]]:
    """The columns and rows of cells in which other objects stand than before; none where the level has another size. Both are of the same labels."""
    if len(before) != len(after) or len(before[0]) != len(after[0]):
        return []
    return [(column, row) for row, cells in enumerate(after) for column, names in enumerate(cells) if names is not before[row][column]]


def arrows_of(headings: Sequence[Heading]) -> Dict[Tuple[int, int], str]:
    """An arrow for each cell in which something heads somewhere; a plus where that isn't one direction."""
    arrows: Dict[Tuple[int, int], str] = {}
    for it in headings:
        arrow = ARROWS[it.direction]
        arrows[it.column, it.row] = arrow if arrows.get((it.column, it.row), arrow) == arrow else "+"
    return arrows


def map_of(rows: Rows, marks: Mapping[Tuple[int, int], str]) -> List[str]:
    """The cells of a level that have a mark, among points."""
    return ["".join(marks.get((column, row), ".") for column in range(len(cells))) for row, cells in enumerate(rows)]


def picture(rows: Rows, changed: Sequence[Tuple[int, int]], headings: Sequence[Heading], game: Game) -> List[str]:
    """A level by the game's letters, and beside it which cells changed and where pieces head, as far as there are any."""
    parts = [("level", lettered(game, rows))]
    if changed:
        parts.append(("changed", map_of(rows, dict.fromkeys(changed, "*"))))
    if headings:
        parts.append(("heading", map_of(rows, arrows_of(headings))))
    room = max(len(rows[0]), len("changed")) + 4
    return ["| " + "".join(it.ljust(room) for it in line).rstrip() for line in zip(*([name, *letters] for name, letters in parts))]


def heading_told(it: Heading) -> str:
    """A piece that heads somewhere. Columns and rows are counted from 1."""
    return f"column {it.column + 1}, row {it.row + 1}: {cut(it.name)} heads {it.direction}"


def headings_told(stage: Acted, before: Optional[Acted]) -> List[str]:
    """The pieces that head elsewhere than before, a line each."""
    old = set(before.headings) if before else set()
    new = [it for it in stage.headings if it not in old]
    lines = [heading_told(it) for it in new[:CELLS_TOLD]]
    return [*lines, f"and {plural(len(new) - CELLS_TOLD, 'more piece')} that head elsewhere"] if len(new) > CELLS_TOLD else lines


def cells_told(before: Rows, after: Rows, changed: Sequence[Tuple[int, int]]) -> List[str]:
    """The first cells that changed, a line each."""
    lines = [f"column {x + 1}, row {y + 1}: {cell_told(after[y][x])}; before: {cell_told(before[y][x])}" for x, y in changed[:CELLS_TOLD]]
    more = len(changed) - CELLS_TOLD
    return [*lines, f"and {plural(more, 'more cell')}"] if more > 0 else lines


def drawn(stage: Acted, before: Optional[Acted], text: Text, is_always: bool = False) -> List[str]:
    """What a stage did to the level, in letters and in words; nothing where it did nothing, unless that is asked for."""
    labels = Labels()
    after, old = rows_of(stage.level, text.order, labels), rows_of(before.level, text.order, labels) if before else None
    if after is None:
        return [UNREADABLE] if is_always or before is None or before.level != stage.level else []
    changed = changed_cells(old, after) if old else []
    is_same = old == after and (before is None or set(before.headings) == set(stage.headings))
    if is_same and not is_always:
        return []
    words = cells_told(old, after, changed) if old else []
    return [*picture(after, changed, stage.headings, game_of(text.source)), *words, *headings_told(stage, before)]


def end_told(stage: Stage) -> str:
    """How a step ends."""
    if "cancel" in stage.commands:
        return "the end: the step is cancelled, so the level is the one before it"
    gives = f", with {', '.join(stage.commands)}" if stage.commands else ""
    return f"the end: the level is {'another than' if stage.is_changed else 'as it was'} before the step{gives}"


def firing_told(it: Firing) -> str:
    """When and where an instance fired. Columns, rows, passes and rounds are counted from 1."""
    places = [" and ".join(f"column {x + 1}, row {y + 1}" for x, y in one) for one in it.places[:PLACES_TOLD]]
    more = len(it.places) - len(places)
    turn = f"round {it.loop_round + 1}, pass {it.group_pass + 1}" if it.loop_round else f"pass {it.group_pass + 1}"
    return f"{turn}: fires {it.direction} at {'; '.join(places)}{f' and at {more} more' if more else ''}"


def title_of(stage: AnyTold, entry: Entry, at: int) -> str:
    """What a stage is, in a line."""
    if isinstance(stage, Stop):
        return f"the step stops: {STOPS[stage.cause]} ({stage.cause})"
    if isinstance(stage, Firing):
        return firing_told(stage)
    if stage.name == END:
        return end_told(stage)
    if stage.name == INPUT:
        return "the press" if is_press(entry, at, stage.tick) else f"tick {stage.tick}" if stage.tick else "a tick"
    if stage.name == MOVEMENT:
        return "the movement" if stage.is_changed else "the movement: nothing heads anywhere"
    gives = f"gives {', '.join(stage.commands)}" if stage.commands else ""
    does = ", ".join(it for it in ("" if stage.is_changed else "changes nothing", gives) if it)
    return f"{block_told(stage, entry.source)}{': ' if does else ''}{does}"


def told_of(stage: AnyTold, before: Optional[Acted], entry: Entry, at: int, text: Text) -> List[str]:
    """A stage in lines: what it is, the rules that it is made of, and what it did to the level. `before` is the stage before it, None at the first."""
    title = title_of(stage, entry, at)
    if isinstance(stage, Stop):
        return [title]
    lines = (stage.line,) if isinstance(stage, Firing) else stage.lines
    below = [*rule_lines(lines, text), *drawn(stage, before, text, before is None)]
    return [title, *(f"    {it}" for it in below)]
