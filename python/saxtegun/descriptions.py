"""What the engine has read of a source: its lines without comments, its sections by their words, or its first fault. A source that is refused is told as far
as it goes. No rule is expanded for it, which may take long. Nothing in this package cuts a source into words by itself."""
from __future__ import annotations

import json
import os
import subprocess
import tempfile
from array import array
from bisect import bisect_left
from contextlib import contextmanager
from itertools import islice
from pathlib import Path
from typing import IO, Any, Dict, Iterable, Iterator, List, NamedTuple, Optional, Sequence, Tuple

from saxtegun.budget import EXPLAINING
from saxtegun.commands import Refused, cut, fold
from saxtegun.processes import Unanswered, room_for_now, watched
from saxtegun.programs import describer_words

SECTIONS = ("prelude", "objects", "legend", "sounds", "collisionlayers", "rules", "winconditions", "levels")
# So many seconds the engine has for sources outside of explaining, and so many bytes it may tell at once: far more than of any source.
SECONDS = 60.0
MOST_TOLD = 2**27
# So many letters of sources are kept with what was told of them: of the longest that is played, and as many of others, which may come by turns with it. A source
# of which more than so many times its letters are told counts as if it had more, since that is what takes memory.
MOST_KEPT = 2**21
MOST_OF_A_LETTER = 32
# So many sources, and letters of them, are asked for at once.
MOST_AT_ONCE, MOST_LETTERS_AT_ONCE = 1000, 2**21
OUTLINES = "--outlines"  # behind the program that tells sources
CANT_ASK = "the engine can't be asked what it reads of a source: "
NONE_TOLD = "what it wrote is no description"


class Undescribed(Refused):
    """The engine could not be asked what it reads of a source."""

    def __init__(self, why: object) -> None:
        super().__init__(f"{CANT_ASK}{why}")


class Fault(NamedTuple):
    """The first fault of a source, unless it is found as rules are expanded, and its line, or 0."""

    code: str
    line: int


class Line(NamedTuple):
    """A line of a source without its comments, which is no heading and is not left out."""

    number: int
    section: str
    text: str


class Lines:
    """The lines of a source that are not left out. A source may have a million of them, so each is made where it is asked for."""

    def __init__(self) -> None:
        self.numbers = array("I")
        self.texts: List[str] = []
        # the number of each one's section; a heading has that of none
        self.sections = bytearray()
        self.headings: List[str] = []

    def add(self, number: int, section: str, is_heading: bool, text: str) -> None:
        self.numbers.append(number)
        self.texts.append(text)
        self.sections.append(len(SECTIONS) if is_heading else SECTIONS.index(section))
        if is_heading:
            self.headings.append(section)

    def with_headings(self) -> Iterator[Tuple[int, str]]:
        """The number and the text of each, of headings too."""
        return zip(self.numbers, self.texts)

    def __iter__(self) -> Iterator[Line]:
        names = (*SECTIONS, "")
        return (Line(number, names[of], text) for number, of, text in zip(self.numbers, self.sections, self.texts) if names[of])

    def of(self, section: str) -> List[Line]:
        """Those of a section."""
        return [it for it in self if it.section == section]

    def place_of(self, number: int) -> int:
        place = bisect_left(self.numbers, number)
        if self.numbers[place] != number:
            raise ValueError(f"there is no line {number}")
        return place

    def text_of(self, number: int) -> str:
        return self.texts[self.place_of(number)]

    def behind(self, number: int, count: int) -> List[int]:
        """The numbers of so many lines of a section from one of them on."""
        place = self.place_of(number)
        section = self.sections[place]
        same = (self.numbers[it] for it in range(place, len(self.numbers)) if self.sections[it] == section)
        return list(islice(same, count))


class Setting(NamedTuple):
    """A line of the prelude: its keyword in small letters, and its value."""

    number: int
    keyword: str
    value: str


class Paragraph(NamedTuple):
    """An object as it is written: the numbers of its lines (its names, its colours, its sprite), and its layer, where the engine gives it one."""

    numbers: List[int]
    names: List[str]
    colours: List[str]
    sprite: List[str]
    layer: Optional[int]


class Definition(NamedTuple):
    """A definition of LEGEND by the words on both sides, with what kind of name the engine makes of it, and of which objects, by their places."""

    number: int
    left: List[str]
    right: List[str]
    kind: Optional[str]
    members: Tuple[int, ...]


class Words(NamedTuple):
    """A line by its words in small letters, and as it is written."""

    number: int
    words: List[str]
    text: str

    def places(self) -> Iterator[int]:
        """Where each word begins in the text."""
        text, at = fold(self.text), 0
        for word in self.words:
            at = text.index(word, at)
            yield at
            at += len(word)

    def as_written(self) -> List[str]:
        """The words as they are written."""
        return [self.text[at : at + len(word)] for at, word in zip(self.places(), self.words)]

    @property
    def joins(self) -> bool:
        """Whether it is a rule that goes on the group above it."""
        return self.words[0] == "+"

    @property
    def is_late(self) -> bool:
        """Whether it is a rule with `late` before its first row."""
        return "late" in before("[", self.words)


class Drawn(NamedTuple):
    """An entry of LEVELS: its rows with their numbers; a message has no row."""

    numbers: List[int]
    rows: Tuple[str, ...]


class Description(NamedTuple):
    """What the engine has read of a source."""

    fault: Optional[Fault]
    lines: Lines
    prelude: List[Setting]
    objects: List[Paragraph]
    legend: List[Definition]
    layers: List[Words]
    rules: List[Words]
    wins: List[Words]
    levels: List[Drawn]


NOTHING = Description(None, Lines(), [], [], [], [], [], [], [])


def before(word: str, words: Sequence[str]) -> Sequence[str]:
    """The words before the first one like this, or all."""
    return words[: words.index(word)] if word in words else words


def paragraph_of(lines: Lines, it: Dict[str, Any]) -> Paragraph:
    count = 1 + bool(it["colours"]) + len(it["sprite"])
    return Paragraph(lines.behind(it["line"], count), it["names"], it["colours"], it["sprite"], it.get("layer"))


def shaped(told: Dict[str, Any]) -> Description:
    """A description of its values, as long as there is time. What is of another form ends it by an error of any kind."""
    lines, each, fault = Lines(), EXPLAINING.each, told["fault"]
    for it in each(told["lines"]):
        lines.add(*it)

    def words(name: str, of: str = "words") -> List[Words]:
        return [Words(it["line"], it[of], lines.text_of(it["line"])) for it in each(told[name])]

    return Description(
        None if fault is None else Fault(fault["code"], fault["line"]),
        lines,
        [Setting(it[0], fold(it[1]), it[2]) for it in each(told["prelude"])],
        [paragraph_of(lines, it) for it in each(told["objects"])],
        [Definition(it["line"], it["left"], it["right"], it.get("kind"), tuple(it.get("members", ()))) for it in each(told["legend"])],
        words("layers", "names"),
        words("rules"),
        words("wins"),
        [Drawn(lines.behind(it["line"], len(it.get("rows", ())) or 1), tuple(it.get("rows", ()))) for it in each(told["levels"])],
    )


def read(text: str) -> Description:
    """The description of a line. Refused where it is none."""
    try:
        return shaped(json.loads(text))
    except (ValueError, TypeError, LookupError, AttributeError, OverflowError, RecursionError):
        raise Undescribed(NONE_TOLD) from None


def bytes_of(source: str) -> bytes:
    """A source as the engine takes it; half a letter, which is no text, is another one there."""
    return source.encode("utf-8", "replace")


def seconds_now() -> float:
    """How long the engine has: what is left to explain, where this is to explain."""
    EXPLAINING.look()
    return EXPLAINING.seconds_left() if EXPLAINING.begin is not None else SECONDS


def why_it_ended(words: Sequence[str], told: "IO[bytes]", folder: str) -> str:
    """Lets the engine write into a file what it reads of sources in a folder; why it did not tell all of them, or nothing."""
    try:
        ran = watched(words, told, subprocess.DEVNULL, seconds_now(), folder)
    except Unanswered as why:
        EXPLAINING.look()
        return str(why)
    except Refused as why:
        return str(why)
    return "" if ran.status == 0 else cut(ran.said) or f"it ended with status {ran.status}"


def why_cut(told: "IO[bytes]") -> str:
    """Cuts off what is more than may be told at once; why not all is read then, or nothing."""
    if os.fstat(told.fileno()).st_size <= MOST_TOLD:
        return ""
    told.truncate(MOST_TOLD)
    return f"it told more than {MOST_TOLD // 2**20} MiB"


def lines_told(told: "IO[bytes]") -> List[str]:
    """The lines that are whole."""
    told.seek(0)
    try:
        return [it[:-1].decode("utf-8") for it in told if it.endswith(b"\n")]
    except ValueError:
        raise Undescribed(NONE_TOLD) from None


def asked(sources: Sequence[str], words: Sequence[str]) -> List[str]:
    """The lines by which one process tells sources: all of them, or as many as it told before it ended, or before it had told too much. Refused where that is none."""
    names = [str(number) for number in range(len(sources))]
    try:
        with tempfile.TemporaryFile() as told, room_for_now() as room:
            for name, source in zip(names, sources):
                (Path(room) / name).write_bytes(bytes_of(source))
            why = why_it_ended([*words, *names], told, room)
            why = why_cut(told) or why
            lines = lines_told(told)
    except OSError as error:
        raise Undescribed(error.strerror) from None
    if not lines or len(lines) > len(sources) or (not why and len(lines) < len(sources)):
        raise Undescribed(why or NONE_TOLD)
    return lines


def how_to_ask() -> List[str]:
    try:
        return [*describer_words(), OUTLINES]
    except Refused as why:
        raise Undescribed(why) from None


class Descriptions:
    """What was told of sources. With one that is asked for those are asked for that are expected, as far as they may be at once, since a process for each
    takes long. Where these have too many letters what was told before is forgotten, and expected again."""

    def __init__(self) -> None:
        self.known: Dict[str, Description] = {}
        # lines that are not read yet
        self.told: Dict[str, str] = {}
        self.letters = 0
        self.expected: Dict[str, None] = {}

    def cache_clear(self) -> None:
        """Forgets all, as what remembers what it told does."""
        self.known.clear()
        self.told.clear()
        self.letters = 0

    def of(self, source: str) -> Description:
        if source not in self.known:
            if source not in self.told:
                self.ask(source)
            line = self.told.pop(source)
            self.letters += max(len(source), len(line) // MOST_OF_A_LETTER)
            if self.letters > MOST_KEPT:
                self.expected.update(dict.fromkeys(self.known))
                self.known.clear()
                self.letters = len(source)
            self.known[source] = read(line)
        return self.known[source]

    def ask(self, source: str) -> None:
        """Asks for a source, and for those that are expected."""
        them, letters = [source], len(source)
        for it in (it for it in [*self.expected, *self.told] if it != source and it not in self.known):
            letters += len(it)
            if letters > MOST_LETTERS_AT_ONCE or len(them) == MOST_AT_ONCE:
                break
            them.append(it)
        self.expected.update(dict.fromkeys(self.told))
        self.told = dict(zip(them, asked(them, how_to_ask())))
        for it in self.told:
            self.expected.pop(it, None)


DESCRIPTIONS = Descriptions()


def description_of(source: str) -> Description:
    """What the engine has read of a source."""
    return DESCRIPTIONS.of(source)


def expect(sources: Iterable[str]) -> None:
    """Notes sources that are to be asked for soon, so that they are asked for at once."""
    DESCRIPTIONS.expected = dict.fromkeys(sources)


@contextmanager
def expected(sources: Iterable[str]) -> Iterator[None]:
    """Notes sources for as long as this lasts, in the place of those that are expected."""
    before_it = DESCRIPTIONS.expected
    expect(sources)
    try:
        yield
    finally:
        DESCRIPTIONS.expected = before_it
