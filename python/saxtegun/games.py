"""How a game looks, of what the engine has read of its source: objects with their colours, sprites and layers, and the glyphs of cells.

A source that is refused is shown as far as it goes: nothing here fails, and what is missing is left out."""
from __future__ import annotations

import re
from functools import lru_cache
from typing import Dict, FrozenSet, Iterable, List, NamedTuple, Optional, Sequence, Set, Tuple, Union

from saxtegun.budget import EXPLAINING
from saxtegun.commands import begin_of, fold
from saxtegun.descriptions import NOTHING, Definition, Description, Line, Paragraph, description_of, expected
from saxtegun.levels import each_once

PALETTE = {
    "black": "#000000", "white": "#ffffff", "grey": "#9d9d9d", "darkgrey": "#697175", "lightgrey": "#cccccc", "gray": "#9d9d9d",
    "darkgray": "#697175", "lightgray": "#cccccc", "red": "#be2633", "darkred": "#732930", "lightred": "#e06f8b", "brown": "#a46422",
    "darkbrown": "#493c2b", "lightbrown": "#eeb62f", "orange": "#eb8931", "yellow": "#f7e26b", "green": "#44891a", "darkgreen": "#2f484e",
    "lightgreen": "#a3ce27", "blue": "#1d57f7", "lightblue": "#b2dcef", "darkblue": "#1b2632", "purple": "#342a97", "pink": "#de65e2",
}
DEFAULT_PALETTE = ("arnecolors", "1")
OTHER_COLOUR = "grey"
CLEAR = "transparent"
HEX = re.compile("#(?:[0-9a-f]{3}|[0-9a-f]{6})")
SIDE = 5
# A pixel is a digit, so no further colour is drawn.
MOST_COLOURS = 10
# So many synonyms lead from a letter to what it draws; no author writes more.
MOST_SYNONYMS = 20
# Words of the prelude that switch a key off.
SWITCHES: Dict[str, Union[int, str]] = {"noaction": 4, "noundo": "undo", "norestart": "restart"}
# What says how often a tick is.
CLOCK = "realtime_interval"
# The sections that a source is written with, in their order.
NEEDED = ("objects", "legend", "collisionlayers", "rules", "winconditions", "levels")


class Object(NamedTuple):
    """An object: its name, its colours (None: transparent), 25 pixels or none at all, and its layer or None."""

    name: str
    colours: List[Optional[str]]
    sprite: str
    layer: Optional[int]


# What a game is called that has no title.
UNTITLED = "a game"


def is_seen(text: str) -> bool:
    """Whether a text has a letter that is seen."""
    return any(it.isprintable() and not it.isspace() for it in text)


def title_in(told: Description) -> Optional[str]:
    """The title that a source has last, whole: titles that differ behind their beginnings are of two games. None where no letter of it is seen."""
    last = next((it.value for it in reversed(told.prelude) if it.keyword == "title"), "")
    return last if is_seen(last) else None


def written_lines(lines: Iterable[Line]) -> List[str]:
    """The texts of lines, with the headings that a source of them needs."""
    of: Dict[str, List[str]] = {}
    for it in lines:
        of.setdefault(it.section, []).append(it.text)
    sections = [text for section in NEEDED for text in (section.upper(), *of.get(section, []))]
    return [*of.get("prelude", []), *sections]


class Game:
    """How a game looks. `notes` tells what is drawn otherwise than the game draws it."""

    def __init__(self, source: str) -> None:
        self.show(description_of(source), [])

    def show(self, told: Description, notes: Iterable[str]) -> None:
        """Takes over what is told of a source."""
        self.notes = [*notes]
        self.title = begin_of(title_in(told) or UNTITLED)
        self.ground = PALETTE["black"]
        # by an input the word that switches it off: the site takes no such key, so no recording has it
        self.switches = {SWITCHES[it.keyword]: it.keyword for it in told.prelude if it.keyword in SWITCHES}
        self.read_colours(told)
        self.objects = [Object(fold(it.names[0]), self.colours_of(it), self.sprite_of(it), it.layer) for it in told.objects]
        self.places = {it.name: place for place, it in enumerate(self.objects)}
        self.layers = {it.name: it.layer for it in self.objects if it.layer is not None}
        self.first_names = {fold(name): fold(it.names[0]) for it in reversed(told.objects) for name in it.names}
        self.definitions: Dict[str, Definition] = {fold(it.left[0]): it for it in reversed(told.legend)}
        self.known_drawn: Dict[Tuple[int, ...], FrozenSet[str]] = {}
        self.glyphs = self.glyphs_of([word for it in told.objects for word in it.names] + [word for it in told.legend for word in (*it.left, *it.right)])
        grounds = {self.layers.get(name) for name in self.members("background")[:1]}
        self.grounds = {it.name for it in self.objects if it.layer is not None and it.layer in grounds}

    def read_colours(self, told: Description) -> None:
        for it in told.prelude:
            if it.keyword == "background_color":
                self.ground = self.colour_of(fold(it.value)) or self.ground
            elif it.keyword == "color_palette" and fold(it.value) not in DEFAULT_PALETTE:
                self.notes.append(f"its palette {it.value} is drawn by the colours of arnecolors")

    def colour_of(self, word: str) -> Optional[str]:
        """The colour of a word by its numbers, or None where it is transparent."""
        if HEX.fullmatch(word):
            return word if len(word) == 7 else "#" + "".join(2 * digit for digit in word[1:])
        if word not in PALETTE and word != CLEAR:
            self.notes.append(f"its colour {word} is drawn as {OTHER_COLOUR}")
            word = OTHER_COLOUR
        return PALETTE.get(word)

    def colours_of(self, it: Paragraph) -> List[Optional[str]]:
        return [self.colour_of(fold(word)) for word in it.colours[:MOST_COLOURS]]

    def sprite_of(self, it: Paragraph) -> str:
        """The pixels of an object, row by row, or none at all where it is a block of its first colour."""
        pixels = "".join(it.sprite)
        if len(it.sprite) != SIDE or len(pixels) != SIDE * SIDE:
            return ""
        if any(pixel != "." and int(pixel) >= len(it.colours) for pixel in pixels):
            self.notes.append(f"pixels of {fold(it.names[0])} have a number beyond its colours, and are left out")
        return pixels

    def places_of(self, name: str) -> Tuple[int, ...]:
        """The places of the objects that a name stands for, in the order of first mention."""
        if name in self.first_names:
            return (self.places[self.first_names[name]],)
        return self.definitions[name].members if name in self.definitions else ()

    def members(self, name: str) -> List[str]:
        """The objects that a name stands for, in the order of first mention."""
        return [self.objects[it].name for it in self.places_of(name)]

    def is_property(self, name: str) -> bool:
        return name in self.definitions and self.definitions[name].kind == "property"

    def drawn_by(self, name: str) -> FrozenSet[str]:
        """The objects that a letter draws, by its name: of one layer the last stands. Many letters may draw the same."""
        members = self.places_of(name)
        if members not in self.known_drawn:
            self.known_drawn[members] = frozenset({self.layers.get(it): it for it in self.members(name)}.values())
        return self.known_drawn[members]

    def draws(self, name: str) -> bool:
        """Whether a name is one of an object or an aggregate, or a synonym of one. The engine tells no kinds of a source that is refused."""
        for _ in range(MOST_SYNONYMS):
            if name in self.first_names or name not in self.definitions:
                break
            it = self.definitions[name]
            if it.kind or len(it.right) > 1:
                return it.kind != "property" if it.kind else "or" not in map(fold, it.right)
            name = fold(it.right[0])
        return name in self.first_names

    def glyphs_of(self, words: Sequence[str]) -> Dict[FrozenSet[str], str]:
        """For a set of objects the letter that draws it in LEVELS, as it was written first."""
        glyphs: Dict[FrozenSet[str], str] = {}
        for letter in EXPLAINING.each(dict.fromkeys(it for it in words if len(it) == 1)):
            if self.draws(fold(letter)):
                glyphs.setdefault(self.drawn_by(fold(letter)), letter)
        return glyphs

    def glyph_of(self, names: Iterable[str]) -> Optional[str]:
        """The letter that draws a cell of these names, with the background or without it, or None."""
        return self.glyphs.get(frozenset(names)) or self.glyphs.get(frozenset(names) - self.grounds)

    def drawing(self, rows: Sequence[Sequence[Tuple[str, ...]]]) -> Optional[List[str]]:
        """Rows of cells by their letters, or None where a cell has none."""
        letters = each_once(rows, self.glyph_of)
        if any(it is None for row in letters for it in row):
            return None
        return ["".join(it for it in row if it is not None) for row in letters]


def titles_of(sources: Iterable[str]) -> Set[Optional[str]]:
    """The titles of the games of sources, whole, or None for one without. This counts as explaining: UsedUp where there is no time left for it."""
    them = dict.fromkeys(sources)
    with EXPLAINING.spent(), expected(them):
        return {title_in(description_of(it)) for it in EXPLAINING.each(them)}


@lru_cache(maxsize=64)
def title_of(source: str) -> str:
    """The title of a game, or its beginning, where it is long."""
    return begin_of(title_in(description_of(source)) or UNTITLED)


def unknown_game(why: str) -> Game:
    """A game of which nothing is known, and why."""
    game = Game.__new__(Game)
    game.show(NOTHING, [why])
    return game


@lru_cache(maxsize=64)
def game_of(source: str) -> Game:
    """How a game looks. The sessions of a suite share few sources."""
    return Game(source)
