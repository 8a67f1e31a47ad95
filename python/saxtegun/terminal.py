"""A level in a terminal, as large as it fits: in the game's colours, two rows of pixels in a row of the terminal, or by a letter a cell."""
from __future__ import annotations

import os
import sys
from enum import Enum
from functools import lru_cache
from typing import Dict, FrozenSet, Iterable, List, Mapping, NamedTuple, Optional, Sequence, Tuple, Union

from saxtegun.games import SIDE, Game, Object
from saxtegun.levels import each_once

KEYS: Dict[str, Union[int, str]] = {"\x1b[A": 0, "\x1b[D": 1, "\x1b[B": 2, "\x1b[C": 3, "w": 0, "a": 1, "s": 2, "d": 3, "x": 4, " ": 4, "z": "undo", "u": "undo", "r": "restart", "t": "tick"}
CLEAR = "\x1b[2J\x1b[H"
PLAIN = "\x1b[0m"
UNDERLINED, NOT_UNDERLINED = "\x1b[4m", "\x1b[24m"
UNKNOWN = "?"
UPPER_HALF = "\u2580"
Pixels = List[List[Optional[str]]]
Cell = Tuple[str, ...]
Rgb = Tuple[int, int, int]
# Colours as terminals number them: the first 16, then a cube of so many shades a side, then greys.
FIRST: Sequence[Rgb] = ((0, 0, 0), (205, 0, 0), (0, 205, 0), (205, 205, 0), (0, 0, 238), (205, 0, 205), (0, 205, 205), (229, 229, 229),
                        (127, 127, 127), (255, 0, 0), (0, 255, 0), (255, 255, 0), (92, 92, 255), (255, 0, 255), (0, 255, 255), (255, 255, 255))
SHADES = (0, 95, 135, 175, 215, 255)
CUBE: Sequence[Rgb] = tuple((red, green, blue) for red in SHADES for green in SHADES for blue in SHADES)
GREYS: Sequence[Rgb] = tuple((shade, shade, shade) for shade in range(8, 248, 10))


class Depth(Enum):
    """How many colours a terminal has."""

    FIRST = 16
    NUMBERED = 256
    ALL = 256**3


class Screen(NamedTuple):
    """A terminal: its columns and its rows, and how many colours it has, if any."""

    columns: int
    rows: int
    depth: Optional[Depth]


def depth_of(environment: Mapping[str, str]) -> Optional[Depth]:
    """How many colours the environment says that a terminal has. NO_COLOR asks for none."""
    if environment.get("NO_COLOR"):
        return None
    kind = environment.get("TERM", "")
    if environment.get("COLORTERM") in ("truecolor", "24bit") or kind.endswith("-direct"):
        return Depth.ALL
    return Depth.NUMBERED if "256color" in kind else Depth.FIRST


# How large a terminal is taken to be that doesn't know: columns and rows.
UNTOLD = (80, 24)


def screen_now() -> Optional[Screen]:
    """The terminal of standard output, as large as it is at this moment; None where that is no terminal, or one that knows nothing but letters."""
    if not sys.stdout.isatty() or os.environ.get("TERM", "") in ("", "dumb"):
        return None
    columns, rows = os.get_terminal_size(sys.stdout.fileno())
    if 0 in (columns, rows):
        # nobody has told it, as in a container
        columns, rows = UNTOLD
    return Screen(columns, rows, depth_of(os.environ))


def rgb(colour: str) -> Rgb:
    return int(colour[1:3], 16), int(colour[3:5], 16), int(colour[5:7], 16)


def nearest(wanted: Rgb, colours: Sequence[Rgb]) -> int:
    """The number of the colour that is nearest to another."""
    return min(range(len(colours)), key=lambda it: sum((one - other) ** 2 for one, other in zip(wanted, colours[it])))


@lru_cache(maxsize=4096)
def codes_of(colour: str, depth: Depth) -> Tuple[str, str]:
    """How a terminal is told to draw in a colour, and how, to draw over it."""
    wanted = rgb(colour)
    if depth == Depth.ALL:
        code = ";".join(map(str, wanted))
        return f"38;2;{code}", f"48;2;{code}"
    if depth == Depth.NUMBERED:
        code = str(16 + nearest(wanted, (*CUBE, *GREYS)))
        return f"38;5;{code}", f"48;5;{code}"
    number = nearest(wanted, FIRST)
    return (f"3{number}", f"4{number}") if number < 8 else (f"9{number - 8}", f"10{number - 8}")


def objects_of(game: Game, names: Iterable[str]) -> List[Object]:
    """The objects of a cell, lowest layer first."""
    found = [game.objects[it] for it in sorted(game.places[name] for name in set(names) if name in game.places)]
    return sorted(found, key=lambda it: (it.layer is None, it.layer or 0))


def pixels_of(game: Game, names: Iterable[str]) -> Pixels:
    """The pixels of a cell: five rows of five colours."""
    pixels: Pixels = [[game.ground] * SIDE for _ in range(SIDE)]
    for it in objects_of(game, names):
        for at in range(SIDE * SIDE):
            digit = it.sprite[at] if it.sprite else "0"
            colour = it.colours[int(digit)] if digit != "." and int(digit) < len(it.colours) else None
            if colour is not None:
                pixels[at // SIDE][at % SIDE] = colour
    return pixels


def painted(game: Game, rows: Sequence[Sequence[Cell]], depth: Depth) -> List[str]:
    """A level, two rows of pixels in a row of the terminal."""
    grid: Pixels = [[colour for pixels in row for colour in pixels[line]] for row in each_once(rows, lambda names: pixels_of(game, names)) for line in range(SIDE)]
    if len(grid) % 2:
        grid.append([game.ground] * len(grid[0]))
    return [painted_row(upper, lower, depth) for upper, lower in zip(grid[::2], grid[1::2])]


def painted_row(upper: List[Optional[str]], lower: List[Optional[str]], depth: Depth) -> str:
    """Two rows of pixels as one row of upper halves over lower halves."""
    pieces: List[str] = []
    last: Optional[Tuple[str, str]] = None
    for one, other in zip(upper, lower):
        pair = (one or "#000000", other or "#000000")
        if pair != last:
            pieces.append(f"\x1b[{codes_of(pair[0], depth)[0]};{codes_of(pair[1], depth)[1]}m")
            last = pair
        pieces.append(UPPER_HALF)
    return "".join(pieces) + PLAIN


def letters_of_objects(game: Game) -> Dict[str, str]:
    """For each object the letter that draws it with the fewest others."""
    letters: Dict[str, str] = {}
    for names, letter in sorted(game.glyphs.items(), key=lambda it: len(it[0])):
        for name in names:
            letters.setdefault(name, letter)
    return letters


def letter_of(game: Game, names: Iterable[str]) -> str:
    """The letter of a cell; a question mark where it has none, or none that can be shown."""
    letter = game.glyph_of(names) or UNKNOWN
    return letter if letter.isprintable() else UNKNOWN


def marked_letter_of(game: Game, names: Cell, of_objects: Mapping[str, str]) -> str:
    """The letter of a cell; of one that has none the letter of its highest object that has one, underlined."""
    if game.glyph_of(names) is not None:
        return letter_of(game, names)
    near = next((of_objects[it.name] for it in reversed(objects_of(game, names)) if it.name in of_objects), UNKNOWN)
    return f"{UNDERLINED}{near}{NOT_UNDERLINED}" if near != UNKNOWN and near.isprintable() else UNKNOWN


def lettered(game: Game, rows: Sequence[Sequence[Cell]]) -> List[str]:
    """A level by the game's own letters; a cell without one is a question mark."""
    return ["".join(row) for row in each_once(rows, lambda names: letter_of(game, names))]


def marked(game: Game, rows: Sequence[Sequence[Cell]]) -> List[str]:
    """A level by the game's own letters; a cell without one has the nearest, underlined."""
    of_objects = letters_of_objects(game)
    return ["".join(row) for row in each_once(rows, lambda names: marked_letter_of(game, names, of_objects))]


def first_shown(count: int, room: int, middle: int) -> int:
    """The first of so many that is shown where there is room for fewer, with one of them in the middle, if that can be."""
    return max(0, min(middle - room // 2, count - room))


def player_in(game: Game, rows: Sequence[Sequence[Cell]]) -> Tuple[int, int]:
    """The row and the column of the first cell with a player; of the middle where there is none."""
    players: FrozenSet[str] = frozenset(game.members("player"))
    have = each_once(rows, lambda names: not players.isdisjoint(names))
    places = ((row, column) for row, cells in enumerate(have) for column, has_player in enumerate(cells) if has_player)
    return next(places, (len(rows) // 2, len(rows[0]) // 2))


def around_player(game: Game, rows: Sequence[Sequence[Cell]], columns: int, lines: int) -> Sequence[Sequence[Cell]]:
    """As much of a level as there is room for, with the player in it."""
    at = player_in(game, rows)
    top, left = first_shown(len(rows), lines, at[0]), first_shown(len(rows[0]), columns, at[1])
    return [row[left : left + columns] for row in rows[top : top + lines]]


def fitted(game: Game, rows: Sequence[Sequence[Cell]], screen: Screen, has_letters: bool) -> List[str]:
    """A level with cells in a terminal: in colours where it has them and all fits; else by letters, and around the player where not even these fit."""
    fits = SIDE * len(rows[0]) <= screen.columns and SIDE * len(rows) <= 2 * screen.rows
    if screen.depth is not None and fits and not has_letters:
        return painted(game, rows, screen.depth)
    around = around_player(game, rows, max(1, screen.columns), max(1, screen.rows))
    return lettered(game, around) if screen.depth is None else marked(game, around)
