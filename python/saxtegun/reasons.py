"""What exactly is wrong with a line that a fault names: which word of a rule, which bracket; where a level text breaks; and what else there is to do."""
from __future__ import annotations

import re
from itertools import takewhile
from typing import List, NamedTuple, Optional, Tuple

from saxtegun.budget import EXPLAINING
from saxtegun.commands import cut, fold
from saxtegun.culprits import nearest, outside_told
from saxtegun.descriptions import Words, description_of
from saxtegun.games import CLOCK
from saxtegun.levels import number_in

LOOPS = ("startloop", "endloop")
DIRECTIONS = ("up", "down", "left", "right", "horizontal", "vertical", "orthogonal")
PREFIXES = ("late", *DIRECTIONS)
MOVEMENTS = (*"^v<>", "action", "stationary", "moving", "parallel", "perpendicular", *DIRECTIONS)
BEFORE_A_NAME = ("no", *MOVEMENTS)
COMMANDS = ("again", "cancel", "checkpoint", "restart", "win", "message", *(f"sfx{it}" for it in range(11)))
# Words that the profile leaves out have a fault of their own.
OUTSIDE = ("random", "randomdir", "rigid")
# So many letters of a row are shown, and so many of a line are looked at.
SHOWN = 40
MOST_LETTERS = 4000
MOST_OF_A_LEVEL = 1_000_000
REMEDY = "; with --ticks-as-recorded it is played without that line, by the ticks that were recorded"


class Token(NamedTuple):
    """A word or a mark of a rule, and where it begins."""

    text: str
    at: int


class Wrong(Exception):
    """What is wrong with a rule, in words."""


def piece(text: str, at: int) -> str:
    """A part of a rule from here on, as far as it is shown."""
    return f"`{text[at : at + SHOWN].rstrip()}{'..' if len(text) > at + SHOWN else ''}`"


def near(word: str, words: Tuple[str, ...]) -> str:
    found = nearest(word, words)
    return f" (near: `{found}`)" if found and found[0] == word[0] else ""


def check_cell(words: List[Token]) -> None:
    """Refuses what is no cell: items of a name with at most one word before it, or `...` alone."""
    texts = [it.text for it in words]
    if "..." in texts and len(texts) > 1:
        raise Wrong("`...` isn't alone in its cell")
    before = ""
    for word in texts:
        if word in COMMANDS or word in (*LOOPS, "late"):
            raise Wrong(f"`{word}` stands in a cell, and is no name there")
        if word in BEFORE_A_NAME and before:
            raise Wrong(f"`{before}` and `{word}` both stand before a name, of which one may")
        before = word if word in BEFORE_A_NAME else ""
    if before:
        raise Wrong(f"`{before}` stands before no name")


def end_of_row(text: str, tokens: List[Token], begin: int) -> int:
    """Where the row ends that begins at this token. Refused where it has no end, or a cell that is none."""
    cell: List[Token] = []
    for place in range(begin + 1, len(tokens)):
        it = tokens[place]
        if it.text in ("[", "->"):
            break
        if it.text in ("|", "]"):
            check_cell(cell)
            cell = []
        else:
            cell.append(it)
        if it.text == "]":
            return place
    raise Wrong(f"the row {piece(text, tokens[begin].at)} has no `]`")


def check_side(text: str, tokens: List[Token], is_left: bool) -> None:
    """Refuses what is no side of a rule: words before its rows, or behind them."""
    place, rows, last = 0, 0, ""
    while place < len(tokens):
        word = tokens[place].text
        if word in ("]", "|"):
            raise Wrong(f"the `{word}` before {piece(text, tokens[place].at + 1)} is in no row" if text[tokens[place].at + 1 :].strip() else f"the last `{word}` is in no row")
        if word == "[":
            if last:
                raise Wrong(f"`{cut(last)}` stands before a row of the right")
            place, rows = end_of_row(text, tokens, place), rows + 1
        elif is_left and (rows or word not in (*PREFIXES, *OUTSIDE)):
            raise Wrong(f"`{cut(word)}` stands {'behind' if rows else 'before'} a row of the left" + ("" if rows else near(word, PREFIXES)))
        elif not is_left and word == "message":
            return
        elif not is_left and word not in COMMANDS:
            raise Wrong(f"`{cut(word)}` is no command{near(word, COMMANDS)}")
        else:
            last = "" if is_left else word
        place += 1
    if is_left and not rows:
        raise Wrong("it has no row on its left")


def check_place(line: Words, above: Optional[Words], first_of_group: Optional[Words]) -> None:
    """Refuses a rule that joins no group, or makes a group late that isn't."""
    if line.joins:
        if above is None:
            raise Wrong("`+` stands on the first rule, which has no group above it")
        if len(above.words) == 1 and above.words[0] in LOOPS:
            raise Wrong(f"`+` stands behind `{above.words[0]}`, where a group begins")
        if line.is_late and not (first_of_group is not None and first_of_group.is_late):
            raise Wrong(f"`late` stands on a rule of the group of line {first_of_group.number if first_of_group else above.number}, which isn't late")


def check_rule(text: str, tokens: List[Token]) -> None:
    """Refuses what has not the form of a rule."""
    words = [it.text for it in tokens]
    message = words.index("message") if "message" in words else len(words)
    loops = [it for it in words[:message] if it in LOOPS]
    if loops and len(words) > 1:
        raise Wrong(f"`{loops[0]}` isn't alone on its line")
    if loops:
        raise Wrong("the next loop line is no `endloop`" if loops[0] == "startloop" else "no `startloop` is open before it")
    if "->" not in words:
        check_side(text, tokens, True)
        raise Wrong("it has no `->`")
    middle = words.index("->")
    check_side(text, tokens[:middle], True)
    right = tokens[middle + 1 :]
    end = next((place for place, it in enumerate(right) if it.text == "message"), len(right))
    if any(it.text == "->" for it in right[:end]):
        raise Wrong("it has two `->`")
    check_side(text, right, False)


def tokens_of(line: Words) -> List[Token]:
    """The words of a rule, but for the `+` before them, as far as they are looked at."""
    tokens = [Token(word, at) for at, word in takewhile(lambda it: it[0] < MOST_LETTERS, zip(line.places(), line.words))]
    return tokens[1:] if line.joins else tokens


def rule_told(source: str, number: int) -> str:
    """What is wrong with a rule line, in words that go on behind those of its fault, or nothing."""
    above: Optional[Words] = None
    first: Optional[Words] = None
    for line in EXPLAINING.each(description_of(source).rules):
        if line.number == number:
            try:
                check_place(line, above, first)
                check_rule(fold(line.text[:MOST_LETTERS]), tokens_of(line))
            except Wrong as why:
                return f": {why}"
        if not line.joins:
            first = line
        above = line
    return ""


def reason_told(cause: str, source: str) -> str:
    """What more there is to say of a fault than its culprit, or nothing."""
    code, _, number = cause.partition(":")
    is_number = number.isascii() and number.isdecimal()
    if code == "BadRule" and is_number:
        return rule_told(source, int(number[:9]))
    return REMEDY if code == "OutsideProfile" and is_number and outside_told(source, int(number[:9])) == f"`{CLOCK}`" else ""


def break_of(text: str) -> Optional[Tuple[int, int, str]]:
    """Where a text stops to be a level text: its line and letter, from 1, and what stands there; None where it is one,
    or too long to be looked at."""
    if len(text) > MOST_OF_A_LEVEL:
        return None
    count, at = 0, 0
    for it in re.finditer("[^,]*(,|$)", text):
        names, colon, digits = it[0].rstrip(",").replace("\r", "").replace("\n", "").rpartition(":")
        number = number_in(digits)
        is_new = bool(colon) and number == count
        if it[1] and (is_new or (not colon and number is not None and number < count)):
            count, at = count + is_new, it.end()
        elif it[0].strip("\r\n"):
            at += len(it[0]) - len(it[0].lstrip("\r\n"))
            return text.count("\n", 0, at) + 1, at - text.rfind("\n", 0, at), it[0].strip("\r\n").rstrip(",") or ","
    return None
