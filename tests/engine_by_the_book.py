"""A small engine for tests alone, written from docs/language.md and docs/sessions.md: it reads a sessions file and writes the lines of its recording.

It is slow, and looks for nothing that isn't asked for. tests/planting.py plants single errors in it, which the cases of conformance/ must catch."""
from __future__ import annotations

import json
import re
import sys
from itertools import product
from typing import Any, Callable, Dict, FrozenSet, Iterable, List, Optional, Sequence, Set, Tuple, Union

WHITE = "\t\n\x0b\x0c\r \x85\xa0\u1680\u2000\u2001\u2002\u2003\u2004\u2005\u2006\u2007\u2008\u2009\u200a\u2028\u2029\u202f\u205f\u3000"
SECTIONS = ("objects", "legend", "sounds", "collisionlayers", "rules", "winconditions", "levels")
NEEDED = ("objects", "legend", "collisionlayers", "levels")
OPPOSITE = {"up": "down", "down": "up", "left": "right", "right": "left"}
LEFT_OF = {"up": "left", "left": "down", "down": "right", "right": "up"}
STEPS = {"up": (0, -1), "down": (0, 1), "left": (-1, 0), "right": (1, 0)}
HORIZONTAL, VERTICAL = ("left", "right"), ("up", "down")
CLASSES = {"moving": ("up", "down", "left", "right", "action"), "orthogonal": ("up", "down", "left", "right"), "horizontal": HORIZONTAL, "vertical": VERTICAL}
TURNING = ("parallel", "perpendicular")
PREFIXES = {"up": ("up",), "down": ("down",), "left": ("left",), "right": ("right",), "orthogonal": CLASSES["orthogonal"], "horizontal": HORIZONTAL, "vertical": VERTICAL}
MOVEMENTS = ("^", "v", "<", ">", "up", "down", "left", "right", "action", "stationary", *CLASSES, *TURNING)
COMMANDS = ("again", "cancel", "checkpoint", "restart", "win", *(f"sfx{it}" for it in range(11)))
RULE_WORDS = {"[", "]", "|", "->", "...", "late", "startloop", "endloop", "no", "message", *MOVEMENTS, *COMMANDS}
PRESSES = ("up", "left", "down", "right", "action")
MOST_BYTES, MOST_OBJECTS, MOST_LAYERS, MOST_NAMES = 1_048_576, 512, 100, 1_024
MOST_SIDE, MOST_CELLS, MOST_ENTRIES = 255, 16_384, 1_024
MOST_ROWS, MOST_ROW_CELLS, MOST_PAIRS = 8, 64, 65_536
MOST_PASSES, MOST_PLACES, MOST_TICKS = 200, 1_048_576, 500


# What stands in a cell of a level: by its layer the name of an object, and the direction in which it heads.
Cell = Dict[int, Tuple[str, Optional[str]]]
Level = List[List[Cell]]
# The headings of a source with their lines.
Headings = List[Tuple[str, int]]
# A cell of a rule: GAP, or a list of its items, of which `==` tells the one from the other.
RuleCell = Any
RuleRows = List[List[RuleCell]]
# Where the cells of a row stand in a level; a gap stands nowhere.
Place = List[Optional[Tuple[int, int]]]


class Fault(Exception):
    """What a source is refused for: a code and a line."""


class Stop(Exception):
    """The limit at which play stops."""


def fold(text: str) -> str:
    return "".join(it.lower() if "A" <= it <= "Z" else it for it in text)


def words_of(text: str) -> List[str]:
    return [it for it in re.split(f"[{WHITE}]", text) if it]


# Lines


class Line:
    def __init__(self, number: int, section: str, text: str) -> None:
        self.number, self.section, self.text = number, section, text


def ends_plain(section: str, is_first: bool, word: str, letter: str) -> bool:
    """Whether from this letter on, behind a word, a line is plain text."""
    if section == "prelude":
        return letter not in WHITE
    if section == "levels":
        return is_first and fold(word) == "message" and letter in WHITE
    if section == "rules":
        return (fold(word) == "message" and letter in f"{WHITE}[]|") or (fold(word) == "message-" and letter == ">")
    return False


def without_comments(section: str, depth: int, text: str) -> Tuple[str, int]:
    """A line without its comments, and how deep in comments it ends."""
    left, word, is_first = "", "", True
    for at, letter in enumerate(text):
        if depth:
            depth += {"(": 1, ")": -1}.get(letter, 0)
        elif letter == "(":
            depth = 1
        elif ends_plain(section, is_first, word, letter):
            return left + text[at:], 0
        else:
            left += letter
            ends = letter in WHITE or (section == "rules" and (letter in "[]|" or (letter == ">" and word.endswith("-")) or (letter == "+" and is_first and not word)))
            if ends and (word or letter not in WHITE):
                is_first = False
            word = "" if ends else word + letter
    return left, depth


def heading_of(section: str, text: str) -> Optional[str]:
    if section == "prelude" and words_of(fold(text))[:1] == ["objects"]:
        return "objects"
    return fold(text) if fold(text) in SECTIONS else None


def lines_of(source: str) -> Tuple[List[Line], Headings]:
    """The lines that are not skipped, and the headings with their lines."""
    lines, headings = [], []
    section, depth = "prelude", 0
    for number, raw in enumerate(source.split("\n"), 1):
        trimmed, before = raw.strip(WHITE), depth
        left, depth = without_comments(section, depth, trimmed)
        text = left.strip(WHITE)
        heading = heading_of(section, text)
        if heading:
            section = heading
            headings.append((heading, number))
        elif text.strip("=") or (not text and not before and left == trimmed):
            lines.append(Line(number, section, text))
    return lines, headings


def check_headings(headings: Headings) -> None:
    places = [SECTIONS.index(it) for it, _ in headings]
    for at in range(1, len(places)):
        if places[at] <= max(places[:at]):
            raise Fault("Section", headings[at][1])
    if any(it not in dict(headings) for it in NEEDED):
        raise Fault("Section", 0)


def tokens_of(text: str) -> List[str]:
    """The words of a rule line, folded; behind `message` there are none."""
    found = []
    rest = text
    if rest.startswith("+"):
        found, rest = ["+first"], rest[1:]
    for word in re.findall(rf"->|[\[\]|]|(?:(?!->)[^{WHITE}\[\]|])+", rest):
        found.append(fold(word))
        if found[-1] == "message":
            break
    return found


# Names


class Game:
    """What a source says, once it is read without a fault."""

    objects: List[Tuple[str, int]]
    names: Dict[str, str]
    definitions: Dict[str, Tuple[str, List[str], int]]
    layers: Dict[str, int]
    entries: List[Optional[List[str]]]

    def __init__(self, source: str) -> None:
        if len(source.encode()) > MOST_BYTES:
            raise Fault("TooLong", 0)
        self.lines, headings = lines_of(source)
        check_headings(headings)
        self.check_profile()
        self.objects, self.names = [], {}
        self.options = {fold(words_of(it.text)[0]) for it in self.of("prelude")}
        self.read_objects()
        self.definitions = {}
        self.read_legend()
        self.check_legend()
        self.check_missing()
        self.layers = {}
        self.read_layers()
        self.wins = [self.win_of(it) for it in self.of("winconditions")]
        self.entries = []
        self.read_levels()
        self.early, self.late = Rules(self).read()

    def of(self, section: str) -> List[Line]:
        """The lines of a section that have a text."""
        return [it for it in self.lines if it.section == section and it.text]

    def check_profile(self) -> None:
        for line in self.lines:
            words = words_of(fold(line.text))
            if line.section == "prelude" and words[:1] == ["realtime_interval"]:
                raise Fault("OutsideProfile", line.number)
            if line.section == "rules" and {"random", "randomdir", "rigid"} & set(tokens_of(line.text)):
                raise Fault("OutsideProfile", line.number)

    def read_objects(self) -> None:
        lines = [it for it in self.lines if it.section == "objects"]
        at = 0
        while at < len(lines):
            if not lines[at].text:
                at += 1
                continue
            at = self.read_object(lines, at)

    def read_object(self, lines: Sequence[Line], at: int) -> int:
        """Reads the object that begins here; where the next one may."""
        line, at = lines[at], at + 1
        if at >= len(lines) or not lines[at].text:
            raise Fault("BadObject", line.number)
        at += 1
        sprite: List[str] = []
        while at < len(lines) and len(sprite) < 5 and re.fullmatch("[0-9.]+", lines[at].text):
            sprite.append(lines[at].text)
            at += 1
        if sprite and (len(sprite) != 5 or any(len(it) != 5 for it in sprite)):
            raise Fault("BadObject", line.number)
        names = [fold(it) for it in words_of(line.text)]
        for name in names:
            if name in self.names:
                raise Fault("Duplicate", line.number)
            self.names[name] = names[0]
        self.objects.append((names[0], line.number))
        if len(self.objects) > MOST_OBJECTS or len(self.names) > MOST_NAMES:
            raise Fault("TooLarge", line.number)
        return at

    def read_legend(self) -> None:
        for line in self.of("legend"):
            at = line.text.find("=", 1)
            left, right = words_of(fold(line.text[:at])), words_of(fold(line.text[at + 1 :]))
            joints = right[1::2]
            if at < 0 or len(left) != 1 or len(right) % 2 == 0 or (joints and set(joints) not in ({"and"}, {"or"})):
                raise Fault("BadLegend", line.number)
            if left[0] in self.names or left[0] in self.definitions:
                raise Fault("Duplicate", line.number)
            self.definitions[left[0]] = (joints[0] if joints else "same", right[::2], line.number)
            if len(self.names) + len(self.definitions) > MOST_NAMES:
                raise Fault("TooLarge", line.number)

    def is_known(self, name: str) -> bool:
        return name in self.names or name in self.definitions

    def check_legend(self) -> None:
        for _, parts, number in self.definitions.values():
            if not all(map(self.is_known, parts)):
                raise Fault("Unknown", number)
        for name, (_, parts, number) in self.definitions.items():
            if name in self.reached_from(parts):
                raise Fault("BadLegend", number)
        for kind, parts, number in self.definitions.values():
            other = {"and": "or", "or": "and"}.get(kind)
            if other and any(self.kind_of(it) == other for it in parts):
                raise Fault("Mixed", number)

    def reached_from(self, names: Iterable[str]) -> Set[str]:
        found, left = set(), list(names)
        while left:
            name = left.pop()
            if name not in found:
                found.add(name)
                left += self.definitions[name][1] if name in self.definitions else []
        return found

    def resolved(self, name: str) -> str:
        """The name that a synonym stands for in the end: an object's first name, or that of a property or an aggregate."""
        while name in self.definitions and self.definitions[name][0] == "same":
            name = self.definitions[name][1][0]
        return self.names.get(name, name)

    def kind_of(self, name: str) -> str:
        name = self.resolved(name)
        return self.definitions[name][0] if name in self.definitions else "object"

    def members(self, name: str) -> List[str]:
        name = self.resolved(name)
        if name not in self.definitions:
            return [name]
        return list(dict.fromkeys(it for part in self.definitions[name][1] for it in self.members(part)))

    def check_missing(self) -> None:
        for name in ("background", "player"):
            if not self.is_known(name) or self.kind_of(name) == "and":
                raise Fault("Missing", 0)

    def read_layers(self) -> None:
        number = 0
        for line in self.of("collisionlayers"):
            names = words_of(fold(line.text).replace(",", " "))
            if not names:
                continue
            if not all(map(self.is_known, names)):
                raise Fault("Unknown", line.number)
            if any(self.kind_of(it) == "and" for it in names):
                raise Fault("Mixed", line.number)
            number += 1
            if number > MOST_LAYERS:
                raise Fault("TooLarge", line.number)
            for name in names:
                self.layers.update(dict.fromkeys(self.members(name), number))
        for name, at in self.objects:
            if name not in self.layers:
                raise Fault("NoLayer", at)

    def win_of(self, line: Line) -> Tuple[str, str, Optional[str]]:
        """A win line: its kind, X, and Y or None."""
        words = words_of(fold(line.text))
        if len(words) not in (2, 4) or words[0] not in ("all", "some", "any", "no") or (len(words) == 4 and words[2] != "on"):
            raise Fault("BadWin", line.number)
        if not all(map(self.is_known, words[1::2])):
            raise Fault("Unknown", line.number)
        return words[0], words[1], words[3] if len(words) == 4 else None

    def read_levels(self) -> None:
        rows: List[Line] = []
        for line in [*(it for it in self.lines if it.section == "levels"), Line(0, "levels", "")]:
            is_message = words_of(fold(line.text))[:1] == ["message"]
            if rows and (is_message or not line.text):
                self.add_level(rows)
                rows = []
            if is_message:
                self.add_entry(None, line.number)
            elif line.text:
                rows = [*rows, line]
        if not any(self.entries):
            raise Fault("NoLevel", 0)

    def add_entry(self, entry: Optional[List[str]], number: int) -> None:
        self.entries.append(entry)
        if len(self.entries) > MOST_ENTRIES:
            raise Fault("TooLarge", number)

    def add_level(self, rows: Sequence[Line]) -> None:
        width, height = len(rows[0].text), len(rows)
        if width > MOST_SIDE or height > MOST_SIDE or width * height > MOST_CELLS:
            raise Fault("TooLarge", rows[0].number)
        self.add_entry([row.text[:width].ljust(width, row.text[-1] if len(row.text) < width else " ") for row in rows], rows[0].number)
        for row in rows:
            for glyph in row.text[:width]:
                if not self.is_known(fold(glyph)) or self.kind_of(fold(glyph)) == "or":
                    raise Fault("BadGlyph", row.number)

    # Levels: cells by column and row, each a mapping of a layer to an object and its heading.

    def load(self, rows: Sequence[str]) -> Level:
        level = [[self.cell_of(row[x]) for row in rows] for x in range(len(rows[0]))]
        ground = self.members("background")[0]
        layer = self.layers[ground]
        there = [cell[layer][0] for column in level for cell in column if layer in cell]
        for cell in (it for column in level for it in column):
            cell.setdefault(layer, ((there or [ground])[0], None))
        return level

    def cell_of(self, glyph: str) -> Cell:
        cell: Cell = {}
        for name in self.members(fold(glyph)):
            cell[self.layers[name]] = (name, None)
        return cell

    def fits(self, cell: Cell, name: str) -> bool:
        """Whether a cell fits a name of a win line."""
        held = {it for it, _ in cell.values()}
        members = self.members(name)
        return all(it in held for it in members) if self.kind_of(name) == "and" else any(it in held for it in members)

    def has_won(self, level: Level) -> bool:
        cells = [it for column in level for it in column]
        for kind, one, other in self.wins:
            both = [it for it in cells if self.fits(it, one) and (other is None or self.fits(it, other))]
            ones = [it for it in cells if self.fits(it, one)]
            if not {"all": len(both) == len(ones), "no": not both}.get(kind, bool(both)):
                return False
        return bool(self.wins)


# Rules


class Item:
    """A name in a cell of a rule, with its word or None."""

    def __init__(self, word: Optional[str], name: str) -> None:
        self.word, self.name = word, name


class Rule:
    def __init__(self, line: int, directions: List[str], left: RuleRows, right: RuleRows, commands: Set[str]) -> None:
        self.line, self.directions, self.left, self.right, self.commands = line, directions, left, right, commands


class Loop:
    """Groups that are run to rest together."""

    def __init__(self, groups: List[Group]) -> None:
        self.groups = groups


Group = List["Instance"]
Parts = List[Union[Loop, Group]]
GAP = "..."


class Rules:
    """Reads RULES: groups and loops, the early ones and the late ones."""

    early: Parts
    late: Parts
    inner: Optional[Tuple[List[Group], List[Group]]]
    group: Group

    def __init__(self, game: Game) -> None:
        self.game, self.pairs = game, 0
        self.early, self.late = [], []
        self.inner = None
        self.group, self.is_late, self.is_joinable = None, False, False  # type: ignore[assignment]  # a rule begins it

    def read(self) -> Tuple[Parts, Parts]:
        lines = self.game.of("rules")
        marks = [(it.number, fold(it.text)) for it in lines if fold(it.text) in ("startloop", "endloop")]
        for line in lines:
            word = fold(line.text)
            if word in ("startloop", "endloop"):
                self.read_loop_line(line, word, marks)
            else:
                self.read_rule(line)
        return self.early, self.late

    def read_loop_line(self, line: Line, word: str, marks: List[Tuple[int, str]]) -> None:
        place = marks.index((line.number, word))
        beside = marks[place + 1 : place + 2] if word == "startloop" else marks[max(0, place - 1) : place]
        if [it for _, it in beside] != ["endloop" if word == "startloop" else "startloop"]:
            raise Fault("BadRule", line.number)
        if word == "startloop":
            self.inner = ([], [])
        else:
            assert self.inner
            early, late = self.inner
            self.early += [Loop(early)] if early else []
            self.late += [Loop(late)] if late else []
            self.inner = None
        self.is_joinable = False

    def read_rule(self, line: Line) -> None:
        tokens = tokens_of(line.text)
        joins = tokens[:1] == ["+first"]
        tokens = tokens[joins:]
        at = tokens.index("[") if "[" in tokens else len(tokens)
        prefixes, rest = tokens[:at], tokens[at:]
        is_late = "late" in prefixes
        if any(it != "late" and it not in PREFIXES for it in prefixes) or (joins and (not self.is_joinable or (is_late and not self.is_late))):
            raise Fault("BadRule", line.number)
        rule = self.parsed(line.number, [it for it in prefixes if it != "late"], rest)
        if not joins:
            self.is_late, self.is_joinable, self.group = is_late, True, []
            of = self.inner or (self.early, self.late)
            of[self.is_late].append(self.group)
        self.check(rule, self.is_late)
        self.group += Expansion(self.game, rule, self).instances()

    def parsed(self, number: int, words: List[str], tokens: List[str]) -> Rule:
        """The rule of tokens behind the prefixes; refused where they have another form."""
        directions = list(dict.fromkeys(it for word in words or ["orthogonal"] for it in PREFIXES[word]))
        left, tokens = rows_of(number, tokens)
        if not left or tokens[:1] != ["->"]:
            raise Fault("BadRule", number)
        right, commands = rows_of(number, tokens[1:])
        if any(it not in COMMANDS and it != "message" for it in commands):
            raise Fault("BadRule", number)
        return Rule(number, directions, left, right, set(commands) & {"again", "cancel", "checkpoint", "restart", "win"})

    def check(self, rule: Rule, is_late: bool) -> None:
        """The checks of a rule behind its form, but for those of its expansion."""
        rows = [*rule.left, *rule.right]
        items = [it for row in rows for cell in row if cell != GAP for it in cell]
        if any(row.count(GAP) > 1 for row in rows):
            raise Fault("OutsideProfile", rule.line)
        if max(len(rule.left), len(rule.right)) > MOST_ROWS or any(len(row) > MOST_ROW_CELLS for row in rows):
            raise Fault("TooLarge", rule.line)
        if not all(self.game.is_known(it.name) for it in items):
            raise Fault("Unknown", rule.line)
        if any(it.word == "no" and self.game.kind_of(it.name) == "and" for it in items):
            raise Fault("Mixed", rule.line)
        shapes = [[[cell == GAP for cell in row] for row in side] for side in (rule.left, rule.right)]
        if (rule.right and shapes[0] != shapes[1]) or any(row[0] == GAP or row[-1] == GAP for row in rows):
            raise Fault("Shape", rule.line)
        if is_late and any(it.word in MOVEMENTS for it in items):
            raise Fault("LateMovement", rule.line)


def rows_of(number: int, tokens: List[str]) -> Tuple[RuleRows, List[str]]:
    """The rows with which tokens begin, and the tokens behind them."""
    rows = []
    while tokens[:1] == ["["]:
        end = tokens.index("]") if "]" in tokens else -1
        inside = tokens[1:end]
        if end < 0:
            raise Fault("BadRule", number)
        rows.append([cell_of(number, it) for it in cells_in(inside)])
        tokens = tokens[end + 1 :]
    return rows, tokens


def cells_in(tokens: Iterable[str]) -> List[List[str]]:
    cells: List[List[str]] = [[]]
    for token in tokens:
        if token == "|":
            cells.append([])
        else:
            cells[-1].append(token)
    return cells


def cell_of(number: int, tokens: List[str]) -> RuleCell:
    """A cell of a rule: a gap, or items."""
    if tokens == [GAP]:
        return GAP
    items, word = [], None
    for token in tokens:
        if (token == "no" or token in MOVEMENTS) and word is None:
            word = token
        elif token in RULE_WORDS:
            raise Fault("BadRule", number)
        else:
            items.append(Item(word, token))
            word = None
    if word is not None:
        raise Fault("BadRule", number)
    return items


class Choice:
    """What is picked for an instance: a member of a property, or a direction of a class word, of an item of the left."""

    def __init__(self, kind: str, item: Item, place: Tuple[int, int]) -> None:
        self.kind, self.item, self.place = kind, item, place


class Instance:
    def __init__(self, scan: str, left: RuleRows, right: RuleRows, commands: Set[str]) -> None:
        self.scan, self.left, self.right, self.commands = scan, left, right, commands


class Expansion:
    """A rule in its directions, with its picks."""

    def __init__(self, game: Game, rule: Rule, rules: Rules) -> None:
        self.game, self.rule, self.rules = game, rule, rules
        self.left, self.right = ([[self.spelled(cell) for cell in row] for row in side] for side in (rule.left, rule.right))
        self.choices = [it for y, row in enumerate(self.left) for x, cell in enumerate(row) for it in self.choices_in(cell, (y, x))]

    def spelled(self, cell: RuleCell) -> RuleCell:
        """A cell whose aggregates are items for their members, and whose names are resolved. A property of one member is that member."""
        if cell == GAP:
            return GAP
        items = []
        for it in cell:
            members = self.game.members(it.name)
            kind = self.game.kind_of(it.name)
            if kind == "and" or (kind == "or" and (it.word == "no" or len(members) == 1)):
                items += [Item(it.word, member) for member in members]
            else:
                items.append(Item(it.word, self.game.resolved(it.name)))
        return items

    def is_property(self, item: Item) -> bool:
        return self.game.kind_of(item.name) == "or"

    def choices_in(self, cell: RuleCell, place: Tuple[int, int]) -> List[Choice]:
        found = []
        for item in cell if cell != GAP else []:
            if item.word in CLASSES or item.word in TURNING:
                found.append(Choice("direction", item, place))
            if self.is_property(item):
                found.append(Choice("member", item, place))
        return found

    def picks(self, choice: Choice, direction: str) -> Sequence[str]:
        if choice.kind == "member":
            return self.game.members(choice.item.name)
        word = choice.item.word
        if word in CLASSES:
            return CLASSES[word]
        is_level = direction in HORIZONTAL
        return HORIZONTAL if is_level == (word == "parallel") else VERTICAL

    def choice_for(self, kind: str, item: Item, place: Tuple[int, int]) -> Choice:
        """The choice that an item of the right takes."""
        same = [it for it in self.choices if it.kind == kind and (it.item.name == item.name if kind == "member" else it.item.word == item.word)]
        inside = [it for it in same if it.place == place]
        for found in ([it for it in inside if it.item.name == item.name], inside, same):
            if len(found) == 1:
                return found[0]
        raise Fault("AmbiguousRight", self.rule.line)

    def takers(self) -> Dict[Tuple[Item, str], Choice]:
        """For each item of the right that has a choice, which ones it takes."""
        taken = {}
        for y, row in enumerate(self.right):
            for x, cell in enumerate(row):
                for item in cell if cell != GAP else []:
                    if item.word in CLASSES or item.word in TURNING:
                        taken[item, "direction"] = self.choice_for("direction", item, (y, x))
                    if self.is_property(item):
                        taken[item, "member"] = self.choice_for("member", item, (y, x))
        return taken

    def instances(self) -> List[Instance]:
        taken = self.takers()
        options = {direction: [self.picks(it, direction) for it in self.choices] for direction in self.rule.directions}
        for lists in options.values():
            count = 1
            for it in lists:
                count *= len(it)
            self.rules.pairs += count
        if self.rules.pairs > MOST_PAIRS:
            raise Fault("TooManyRules", self.rule.line)
        found, seen = [], set()
        for direction in self.rule.directions:
            for picks in product(*options[direction]):
                of: Dict[Choice, str] = dict(zip(self.choices, picks))
                left = [[self.cell(cell, direction, lambda item, kind: of[next(it for it in self.choices if it.item is item and it.kind == kind)]) for cell in row] for row in self.left]
                right = [[self.cell(cell, direction, lambda item, kind: of[taken[item, kind]]) for cell in row] for row in self.right]
                if not all(self.is_possible(cell) for row in left for cell in row if cell != GAP):
                    continue
                self.check_clash(right)
                scan = "up" if all(len(row) == 1 for row in left) else direction
                key = (scan, keys_of(left), keys_of(right))
                if key not in seen:
                    seen.add(key)
                    found.append(Instance(scan, left, right, self.rule.commands))
        return found

    def cell(self, cell: RuleCell, direction: str, picked: Callable[[Item, str], str]) -> RuleCell:
        """A cell of an instance: pairs of a word that means one thing and an object."""
        if cell == GAP:
            return GAP
        items = []
        for item in cell:
            name = picked(item, "member") if self.is_property(item) else item.name
            word = item.word
            if word in CLASSES or word in TURNING:
                word = picked(item, "direction")
            turned = {">": direction, "<": OPPOSITE[direction], "^": LEFT_OF[direction], "v": OPPOSITE[LEFT_OF[direction]]}
            items.append((turned.get(word, word), name))
        return items

    def is_possible(self, cell: RuleCell) -> bool:
        present = [it for it in cell if it[0] != "no"]
        for word, name in present:
            if ("no", name) in cell:
                return False
            for other, another in present:
                if name != another and self.game.layers[name] == self.game.layers[another]:
                    return False
                if name == another and word and other and word != other:
                    return False
        return True

    def check_clash(self, right: RuleRows) -> None:
        for cell in (it for row in right for it in row if it != GAP):
            placed = [it for it in cell if it[0] != "no"]
            for word, name in placed:
                for other, another in placed:
                    if self.game.layers[name] == self.game.layers[another] and (name, word) != (another, other):
                        raise Fault("RightClash", self.rule.line)


def keys_of(rows: RuleRows) -> Tuple[Any, ...]:
    return tuple(tuple(cell if cell == GAP else frozenset(cell) for cell in row) for row in rows)


# Steps


class Step:
    """What a press or a tick does to a level, which it changes."""

    given: Set[str]

    def __init__(self, game: Game, level: Level, press: Optional[str]) -> None:
        self.game, self.level, self.given = game, level, set()
        self.width, self.height = len(level), len(level[0])
        before = self.players()
        if press is not None:
            self.push(press)
        self.run_all(game.early)
        self.move()
        self.run_all(game.late)
        if press is not None and "require_player_movement" in game.options and before and set(before) <= set(self.players()):
            self.given.add("cancel")

    def players(self) -> List[Tuple[int, int]]:
        players = self.game.members("player")
        return [(x, y) for x in range(self.width) for y in range(self.height) if any(it in players for it, _ in self.level[x][y].values())]

    def push(self, press: str) -> None:
        players = self.game.members("player")
        for x, y in self.players():
            for layer, (name, heading) in self.level[x][y].items():
                self.level[x][y][layer] = (name, press if name in players else heading)

    def run_all(self, parts: Parts) -> None:
        for part in parts:
            if isinstance(part, Loop):
                groups = part.groups
                to_rest(lambda: any([self.rest(group) for group in groups]))
            else:
                self.rest(part)

    def rest(self, group: Group) -> bool:
        return to_rest(lambda: any([self.apply(it) for it in group]))

    def apply(self, instance: Instance) -> bool:
        """Applies an instance; whether it changes something."""
        places = []
        for row in instance.left:
            places.append(self.places(row, instance.scan))
            if not places[-1]:
                return False
        count = 1
        for it in places:
            count *= len(it)
        if count > MOST_PLACES:
            raise Stop("match-limit")
        self.given |= instance.commands
        changed = False
        for backwards in product(*reversed(places)):
            combination = backwards[::-1]
            if instance.right and all(self.row_fits(row, place) for row, place in zip(instance.left, combination)):
                changed = any([self.rewrite(left, right, place) for left, right, place in zip(instance.left, instance.right, combination)]) or changed
        return changed

    def places(self, row: List[RuleCell], scan: str) -> List[Place]:
        """The places of a row: for each the cells of the level, none for its gap."""
        found = []
        starts = [(x, y) for y in range(self.height) for x in range(self.width)] if scan in HORIZONTAL else [(x, y) for x in range(self.width) for y in range(self.height)]
        for start in starts:
            gaps = range(max(self.width, self.height) + 1) if GAP in row else (0,)
            for place in (self.place_at(row, scan, start, gap) for gap in gaps):
                if place is not None and self.row_fits(row, place):
                    found.append(place)
        if len(found) > MOST_PLACES:
            raise Stop("match-limit")
        return found

    def place_at(self, row: List[RuleCell], scan: str, start: Tuple[int, int], gap: int) -> Optional[Place]:
        (x, y), (dx, dy) = start, STEPS[scan]
        cells: Place = []
        for cell in row:
            if cell == GAP:
                cells.append(None)
                x, y = x + dx * gap, y + dy * gap
            else:
                cells.append((x, y))
                x, y = x + dx, y + dy
        is_inside = all(it is None or (0 <= it[0] < self.width and 0 <= it[1] < self.height) for it in cells)
        return cells if is_inside else None

    def row_fits(self, row: List[RuleCell], place: Place) -> bool:
        return all(at is None or self.cell_fits(cell, self.level[at[0]][at[1]]) for cell, at in zip(row, place))

    def cell_fits(self, items: RuleCell, cell: Cell) -> bool:
        held = dict(cell.values())
        for word, name in items:
            if word == "no":
                if name in held:
                    return False
            elif name not in held:
                return False
            elif word is not None and held[name] != (None if word == "stationary" else word):
                return False
        return True

    def rewrite(self, left: List[RuleCell], right: List[RuleCell], place: Place) -> bool:
        return any([self.rewrite_cell(one, other, at) for one, other, at in zip(left, right, place) if at is not None])

    def rewrite_cell(self, left: RuleCell, right: RuleCell, at: Tuple[int, int]) -> bool:
        """Rewrites a cell; whether that changes it."""
        cell = self.level[at[0]][at[1]]
        layers = self.game.layers
        before = dict(cell)
        present = {name for word, name in left if word != "no"}
        worded = {layers[name] for word, name in left if word not in ("no", None)}
        barred = {name for word, name in right if word == "no"}
        placed = {layers[name]: (word, name) for word, name in right if word != "no"}
        for layer, (name, _) in before.items():
            if layer not in placed and (name in present or name in barred):
                del cell[layer]
        for layer, (word, name) in placed.items():
            kept = None if layer in worded else before.get(layer, (None, None))[1]
            cell[layer] = (name, kept if word is None else None if word == "stationary" else word)
        return cell != before

    def move(self) -> None:
        while any([self.move_from(x, y) for x in range(self.width) for y in range(self.height)]):
            pass
        for cell in (it for column in self.level for it in column):
            for layer, (name, _) in list(cell.items()):
                cell[layer] = (name, None)

    def move_from(self, x: int, y: int) -> bool:
        """Moves what can move from a cell; whether something did."""
        moved = False
        for layer in sorted(self.level[x][y]):
            name, heading = self.level[x][y][layer]
            if heading not in STEPS:
                continue
            to_x, to_y = x + STEPS[heading][0], y + STEPS[heading][1]
            if 0 <= to_x < self.width and 0 <= to_y < self.height and layer not in self.level[to_x][to_y]:
                del self.level[x][y][layer]
                self.level[to_x][to_y][layer] = (name, None)
                moved = True
        return moved


def to_rest(run: Callable[[], bool]) -> bool:
    """Runs passes until one changes nothing; whether any did."""
    for number in range(MOST_PASSES):
        if not run():
            return number > 0
    raise Stop("loop-limit")


def copy_of(level: Level) -> Level:
    return [[dict(cell) for cell in column] for column in level]


# Sessions


class Session:
    """A session while it is played: its frames so far."""

    frames: List[Tuple[int, str, Level]]
    past: List[Level]
    cause: Optional[str]

    def __init__(self, game: Game, inputs: Sequence[Any], index: int) -> None:
        self.game, self.frames, self.at = game, [], 0
        self.past, self.is_over, self.has_loaded, self.ticks = [], False, False, 0
        self.entry = index
        if not any(game.entries[index:]):
            raise Fault("no-level", None)
        self.cause = None
        try:
            self.load("start")
            self.chain(self.starts())
            for it in inputs:
                self.take(it)
        except Stop as why:
            self.cause = str(why)

    def starts(self) -> bool:
        return "run_rules_on_level_start" in self.game.options

    def show(self, kind: str, level: Optional[Level] = None) -> None:
        self.frames.append((self.at, kind, copy_of(level or self.level)))

    def load(self, kind: str) -> None:
        while self.game.entries[self.entry] is None:
            self.entry += 1
        self.level = self.game.load(self.game.entries[self.entry])  # type: ignore[arg-type]  # the loop ends at a level
        self.target, self.past = copy_of(self.level), []
        self.show(kind)

    def take(self, given: Any) -> None:
        self.at += 1
        self.ticks, self.has_loaded = 0, False
        before = copy_of(self.level)
        if self.is_over:
            self.show("over")
        elif given == "undo":
            self.level = self.past.pop() if self.past else self.level
            self.show("undo")
        elif given == "tick":
            self.chain(True)
        else:
            self.chain(self.restart() if given == "restart" else self.press(PRESSES[given]))
            if not self.has_loaded and self.level != before:
                self.past.append(before)

    def restart(self) -> bool:
        self.level = copy_of(self.target)
        self.show("restart")
        return self.starts()

    def press(self, direction: str) -> bool:
        level = copy_of(self.level)
        step = Step(self.game, level, direction)
        return self.effect("move", level, step.given)

    def chain(self, goes_on: bool) -> None:
        """Runs ticks as long as one is to follow."""
        while goes_on:
            if self.ticks == MOST_TICKS:
                raise Stop("again-limit")
            self.ticks += 1
            goes_on = self.tick()

    def tick(self) -> bool:
        level = copy_of(self.level)
        given = Step(self.game, level, None).given
        if "cancel" in given or (level == self.level and not given & {"restart", "win"}):
            return False
        return self.effect("tick", level, given)

    def effect(self, kind: str, level: Level, given: Set[str]) -> bool:
        """Shows a step and lets its commands take effect; whether a tick follows."""
        if "cancel" in given:
            self.show(kind)
            return False
        if "restart" in given:
            return self.restart()
        has_changed = level != self.level
        self.level = level
        self.show(kind)
        if "win" in given or self.game.has_won(level):
            return self.win()
        if "checkpoint" in given:
            self.target = copy_of(level)
        return "again" in given and has_changed

    def win(self) -> bool:
        self.entry += 1
        if not any(self.game.entries[self.entry :]):
            self.is_over = True
            return False
        self.has_loaded = True
        self.load("load")
        return self.starts()


# Lines


def cells_in_order(level: Level, order: str) -> List[FrozenSet[str]]:
    """The sets of names of a level's cells."""
    columns = level if order == "columns" else zip(*level)
    return [frozenset(name for name, _ in cell.values()) for column in columns for cell in column]


def text_of(level: Level, order: str) -> str:
    known: Dict[str, int] = {}
    text = ""
    for number, cell in enumerate(cells_in_order(level, order), 1):
        names = " ".join(sorted(cell, key=str.encode))
        text += f"{known[names]}," if names in known else f"{names}:{len(known)},"
        known.setdefault(names, len(known))
        if number % len(level) == 0:
            text += "\n"
    return text


def cells_of_text(text: str) -> List[FrozenSet[str]]:
    """The sets of names that a level text lists, which is good."""
    known, cells = [], []
    for piece in text.replace("\n", "").replace("\r", "").split(",")[:-1]:
        names, colon, number = piece.rpartition(":")
        if colon:
            known.append(frozenset(fold(it) for it in names.split(" ") if it))
        cells.append(known[int(number)])
    return cells


def quoted(text: str) -> str:
    short = {'"': '\\"', "\\": "\\\\", "\b": "\\b", "\f": "\\f", "\n": "\\n", "\r": "\\r", "\t": "\\t"}
    return '"' + "".join(short.get(it) or (f"\\u{ord(it):04x}" if it < " " else it) for it in text) + '"'


def lines_of_entry(number: int, entry: Any, order: str) -> Tuple[List[str], bool]:
    """The lines of a session, and whether it passed."""
    name, (source, inputs, recorded, *rest) = entry[0], entry[1]
    index = rest[0] if rest and rest[0] is not None else 0
    try:
        session = Session(Game(source), inputs, index)
    except Fault as why:
        code, line = why.args
        cause = code if line is None else f"{code}:{line}"
        return [f'{{"cause":{quoted(cause)},"close":"refused","frames":0,"name":{quoted(name)},"session":{number}}}'], False
    lines = [
        f'{{"at":{at},"frame":{frame},"kind":"{kind}","level":{quoted(text_of(level, order))},"session":{number}}}' for frame, (at, kind, level) in enumerate(session.frames)
    ]
    passed = cells_in_order(session.level, order) == cells_of_text(recorded)
    close = "stopped" if session.cause else "passed" if passed else "differs"
    cause = f'"cause":{quoted(session.cause)},' if session.cause else ""
    return [*lines, f'{{{cause}"close":"{close}","frames":{len(lines)},"name":{quoted(name)},"session":{number}}}'], close == "passed"


def recording(entries: Sequence[Any], order: str = "columns") -> Tuple[str, int]:
    """The lines of a sessions file, and the status."""
    answers = [lines_of_entry(number, entry, order) for number, entry in enumerate(entries)]
    return "".join(f"{line}\n" for lines, _ in answers for line in lines), 0 if all(passed for _, passed in answers) else 1


if __name__ == "__main__":
    ORDER = sys.argv[sys.argv.index("--order") + 1] if "--order" in sys.argv else "columns"
    with open(sys.argv[-1], encoding="utf-8") as FILE:
        LINES, STATUS = recording(json.load(FILE), ORDER)
    sys.stdout.write(LINES)
    sys.exit(STATUS)
