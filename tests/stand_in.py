"""A small engine with the command line of the program, for tests of what plays two: a player who pushes crates, walls, and undo.

It knows the objects background, player, crate and wall by the one-letter names behind them, one rule, and levels. A source without a layer for
each of its objects, or with a letter that draws nothing, is refused. With a bug an undo gives back the player and leaves the crates."""
from __future__ import annotations

import json
import sys
from typing import Any, Dict, Iterator, List, Optional, Sequence, Set, Tuple

from day import STEPS, Level, text_of

PUSH = "[ > player | crate ] -> [ > player | > crate ]"
FIRST_HEADING = "objects"
HEADINGS = ("legend", "sounds", "collisionlayers", "rules", "winconditions", "levels")


# The lines of each section, with their numbers.
Sections = Dict[str, List[Tuple[int, str]]]
Glyphs = Dict[str, Set[str]]


class Refusal(Exception):
    """The fault of a source."""


def sections_of(source: str) -> Sections:
    """The lines of each section, with their numbers."""
    sections: Sections = {}
    section = "prelude"
    for number, line in enumerate(source.lower().split("\n"), 1):
        line = line.strip()
        if line == FIRST_HEADING or line in HEADINGS:
            section = line
        elif line.strip("=") or not line:
            sections.setdefault(section, []).append((number, line))
    return sections


def glyphs_of(sections: Sections) -> Glyphs:
    """What each letter draws."""
    glyphs, objects = {}, [it for it in sections.get("objects", []) if it[1].strip("0123456789.")]
    layers = " ".join(line for _, line in sections.get("collisionlayers", [])).replace(",", " ").split()
    for (number, names), colours in zip(objects[::2], objects[1::2]):
        name, *letters = names.split()
        if name not in layers:
            raise Refusal(f"NoLayer:{number}")
        glyphs.update({letter: {"background", name} for letter in letters})
    if not {"background", "player"} <= {name for names in glyphs.values() for name in names}:
        raise Refusal("Missing:0")
    return glyphs


def blocks_of(sections: Sections) -> List[List[Tuple[int, str]]]:
    """The levels, each with the number of its first row."""
    blocks, rows = [], []
    for number, line in [*sections.get("levels", []), (0, "")]:
        if line:
            rows.append((number, line))
        elif rows:
            blocks.append(rows)
            rows = []
    return blocks


def level_of(block: Sequence[Tuple[int, str]], glyphs: Glyphs) -> Level:
    """A level as a list of columns of cells."""
    for number, line in block:
        if set(line) - set(glyphs):
            raise Refusal(f"BadGlyph:{number}")
    width = len(block[0][1])
    rows = [line.ljust(width, line[-1])[:width] for _, line in block]
    return [[set(glyphs[letter]) for letter in column] for column in zip(*rows)]


def moved(level: Level, name: str, at: Tuple[int, int], step: Tuple[int, int]) -> Optional[Level]:
    """The level after something at a place has moved, or None where it can't."""
    aim = at[0] + step[0], at[1] + step[1]
    if not (0 <= aim[0] < len(level) and 0 <= aim[1] < len(level[0])) or level[aim[0]][aim[1]] & {"wall", "crate", "player"}:
        return None
    level = [[set(cell) for cell in column] for column in level]
    level[at[0]][at[1]].remove(name)
    level[aim[0]][aim[1]].add(name)
    return level


def after(level: Level, step: Tuple[int, int], pushes: bool) -> Level:
    places = [(x, y) for x, column in enumerate(level) for y, cell in enumerate(column) if "player" in cell]
    for at in places:
        aim = at[0] + step[0], at[1] + step[1]
        is_crate = 0 <= aim[0] < len(level) and 0 <= aim[1] < len(level[0]) and "crate" in level[aim[0]][aim[1]]
        if is_crate and pushes:
            level = moved(level, "crate", aim, step) or level
        level = moved(level, "player", at, step) or level
    return level


def given_back(before: Level, level: Level, has_bug: bool) -> Level:
    """The level that an undo gives back."""
    if not has_bug:
        return before
    crates = [[cell & {"crate"} for cell in column] for column in level]
    return [[(cell - {"crate"}) | crates[x][y] for y, cell in enumerate(column)] for x, column in enumerate(before)]


def frames_of(entry: Any, has_bug: bool) -> Iterator[Tuple[int, str, Level]]:
    """What a session shows: the inputs taken, the kind and the level of each frame."""
    source, inputs, _, index = (*entry[1], 0)[:4]
    sections = sections_of(source)
    glyphs, blocks = glyphs_of(sections), blocks_of(sections)
    if not blocks or index >= len(blocks):
        raise Refusal("NoLevel:0" if not blocks else "no-level")
    level = level_of(blocks[index], glyphs)
    past: List[Level] = []
    pushes = any(line == PUSH for _, line in sections.get("rules", []))
    yield 0, "start", level
    for at, it in enumerate(inputs, 1):
        if it == "undo":
            level = given_back(past.pop(), level, has_bug) if past else level
            yield at, "undo", level
            continue
        before, level = level, after(level, STEPS[it], pushes) if it in STEPS else level
        past += [before] if before != level else []
        yield at, "move", level


def play(number: int, entry: Any, has_bug: bool) -> bool:
    """The lines of a session; answers whether it passed."""
    frames: List[Dict[str, Any]] = []
    cause, text = None, ""
    try:
        for at, kind, level in frames_of(entry, has_bug):
            text = text_of(level)
            frames.append({"at": at, "frame": len(frames), "kind": kind, "level": text, "session": number})
    except Refusal as why:
        cause = str(why)
    close: Dict[str, Any] = {"cause": cause} if cause else {}
    close.update({"close": "refused" if cause else "passed" if text == entry[1][2] else "differs", "frames": len(frames), "name": entry[0], "session": number})
    for line in [*frames, close]:
        print(json.dumps(line, separators=(",", ":"), ensure_ascii=False))
    return bool(close["close"] == "passed")


def main(has_bug: bool) -> None:
    """Plays the sessions file that the last word names."""
    with open(sys.argv[-1], encoding="utf-8") as file:
        entries = json.load(file)
    sys.exit(0 if all([play(number, entry, has_bug) for number, entry in enumerate(entries)]) else 1)
