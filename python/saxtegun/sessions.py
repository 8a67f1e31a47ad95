"""A sessions file, read as docs/sessions.md has it, and refused by a sentence with the place."""
from __future__ import annotations

import json
import os
import re
from fnmatch import fnmatchcase
from itertools import chain, combinations, islice
from math import isinf
from typing import Any, Dict, Iterator, List, Mapping, NamedTuple, NoReturn, Optional, Sequence, Tuple, Union

from saxtegun.commands import Refused, cut
from saxtegun.files import MARK, TooLong, read_text

SPACE = re.compile(r"[ \t\n\r]*")
LONE_SURROGATE = re.compile("[\ud800-\udfff]")
HALF = "a text of it holds half a letter (a lone surrogate)"
# So many lists and objects stand in one another at most in JSON that is read.
MOST_DEEP = 127
WORDS = ("undo", "restart", "tick")
# What a sessions file holds at most.
MOST_BYTES = 16_777_216
MOST_ENTRIES = 65_536
# The least number that is beyond the largest float has so many digits.
DIGITS_OF_FLOATS = 309
# A further element of an entry, which demands that it is solved.
DEMAND = "solved"
# A text of so many letters is nearly that word if so many letters of the word stand in it in their order.
ALIKE = {4: 4, 5: 5, 6: 5, 7: 6, 8: 6, 9: 6}
NEARLY = {length: re.compile("|".join(".*".join(it) for it in combinations(DEMAND, count)), re.S) for length, count in ALIKE.items()}

Input = Union[int, str]
Item = Tuple[Any, int, int]


class Entry(NamedTuple):
    """An entry of a sessions file. `spans` says where its name, its source and its level stand in the text of the file, and where it does itself."""

    number: int
    name: str
    source: str
    inputs: List[Input]
    level: str
    index: int  # type: ignore[assignment]  # the word of docs/sessions.md, which a tuple has for something else
    spans: Dict[str, Tuple[int, int]]
    is_solved_wanted: bool


class Sessions(NamedTuple):
    """What a sessions file holds, with its text."""

    path: str
    text: str
    entries: List[Entry]


def no_number(word: str) -> NoReturn:
    raise ValueError(f"{word} is no JSON")


def any_number(word: str) -> float:
    """A number as docs/sessions.md reads it: refused where it rounds beyond the largest float, as it would be there."""
    number = float(word)
    if isinf(number):
        raise ValueError(f"{cut(word)} is beyond the largest number")
    return number


def whole_number(word: str) -> Union[int, float]:
    """A number without fraction and exponent. One with a sign for nought is no whole number there."""
    if len(word) >= DIGITS_OF_FLOATS:
        any_number(word)
    return int(word) if word != "-0" else any_number(word)


def members_of(pairs: List[Tuple[str, Any]]) -> Dict[Any, Any]:
    """An object, which nothing here needs. Where two members have one name, their names and values are numbered: none is lost that the program reads."""
    members: Dict[Any, Any] = dict(pairs)
    return members if len(members) == len(pairs) else {number: it for number, it in enumerate(chain.from_iterable(pairs))}


READER = json.JSONDecoder(parse_constant=no_number)
# What refuses all numbers that the program refuses, where they stand for the first time; what an entry doesn't need isn't handed on to the program.
CAREFUL = json.JSONDecoder(parse_constant=no_number, parse_float=any_number, parse_int=whole_number, object_pairs_hook=members_of)


def after_space(text: str, at: int) -> int:
    """Where the text goes on behind white space."""
    match = SPACE.match(text, at)
    return match.end() if match else at


def before_space(text: str, at: int) -> int:
    """The place of the last letter before white space that ends here, or -1."""
    at -= 1
    while at >= 0 and text[at] in " \t\n\r":
        at -= 1
    return at


def next_mark(text: str, at: int, marks: str) -> Tuple[str, int]:
    """The mark that stands next, which must be one of these, and where the text goes on behind it."""
    at = after_space(text, at)
    if text[at : at + 1] not in marks or at == len(text):
        raise json.JSONDecodeError(f"{' or '.join(marks)} is missing", text, at)
    return text[at], after_space(text, at + 1)


def items_in(text: str, at: int, reader: json.JSONDecoder = READER) -> Iterator[Item]:
    """The items of the JSON list that begins here, each with its value, its begin and its end."""
    mark, at = next_mark(text, at, "[")
    if text[at : at + 1] == "]":
        return
    while mark != "]":
        value, end = reader.raw_decode(text, at)
        yield value, at, end
        mark, at = next_mark(text, end, ",]")


def is_number(value: Any, most: int) -> bool:
    return type(value) is int and 0 <= value <= most


def texts_in(value: Any) -> Iterator[str]:
    """The texts of a value, and the names in its objects."""
    left = [value]
    while left:
        it = left.pop()
        if isinstance(it, str):
            yield it
        elif isinstance(it, list):
            left += it
        elif isinstance(it, dict):
            left += [*it, *it.values()]


def is_nearly_demand(value: Any) -> bool:
    """Whether a further element is meant to demand, and doesn't: another text that is nearly the word or holds it, or a list or an object that holds it."""
    if not isinstance(value, str):
        return any(DEMAND in it.lower() for it in texts_in(value))
    lower = value.lower()
    pattern = NEARLY.get(len(lower))
    return value != DEMAND and (DEMAND in lower or (pattern is not None and pattern.search(lower) is not None))


def is_too_deep(value: Any, most: int) -> bool:
    """Whether in a list or an object more than so many stand in one another."""
    level = [value]
    for _ in range(most):
        level = [it for one in level for it in (one if isinstance(one, list) else one.values()) if isinstance(it, (list, dict))]
        if not level:
            return False
    return True


def ignored_fault(elements: List[Any], most: int) -> Optional[str]:
    """What of elements that the program ignores it would not read, or None. `most` is how deep they may be."""
    for it in elements:
        if any(LONE_SURROGATE.search(text) for text in texts_in(it)):
            return HALF
        if isinstance(it, (list, dict)) and is_too_deep(it, most):
            return f"its lists and objects are more than {MOST_DEEP} deep"
    return None


def demand_fault(elements: List[Any]) -> Optional[str]:
    """What is nearly a demand among the further elements of an entry, or None."""
    for it in elements:
        if is_nearly_demand(it):
            told = f"{json.dumps(cut(it), ensure_ascii=False)} is nearly" if isinstance(it, str) else f"that is {'a list' if isinstance(it, list) else 'an object'} holds"
            return f'its further element {told} "{DEMAND}", and would demand nothing'
    return None


def fault_of(entry: Any) -> Optional[str]:
    """What makes a value no entry of a sessions file, or None."""
    if not isinstance(entry, list) or len(entry) < 2 or not isinstance(entry[0], str) or not isinstance(entry[1], list):
        return "it is no list of a name and a list"
    body = entry[1]
    if len(body) < 3 or not isinstance(body[0], str) or not isinstance(body[1], list) or not isinstance(body[2], str):
        return "after its name there is no list of a source, a list of inputs and a level text"
    for place, it in enumerate(body[1]):
        if not (is_number(it, 4) or (isinstance(it, str) and it in WORDS)):
            return f"its input {place} is neither 0 to 4 nor undo, restart or tick"
    if len(body) > 3 and not (body[3] is None or is_number(body[3], 2**64 - 1)):
        return "its index is no whole number"
    if any(LONE_SURROGATE.search(it) for it in (entry[0], body[0], body[2])):
        return HALF
    ignored = ignored_fault(body[4:], MOST_DEEP - 3) or ignored_fault(entry[2:], MOST_DEEP - 2)
    if ignored:
        return ignored
    if any(it == DEMAND or is_nearly_demand(it) for it in body[4:]):
        return f'its second list holds "{DEMAND}" or nearly that, which would demand nothing there: it stands behind that list'
    return demand_fault(entry[2:])


def entry_of(path: str, text: str, number: int, value: Any, begin: int, end: int) -> Entry:
    fault = fault_of(value)
    if fault:
        raise Refused(f"{path}, session {number}, line {text.count(chr(10), 0, begin) + 1}: {fault}")
    name, body = value[0], value[1]
    # what stands behind them is read no second time
    of_name, of_body = islice(items_in(text, begin), 2)
    parts = list(islice(items_in(text, of_body[1]), 4))
    spans = {"name": of_name[1:], "source": parts[0][1:], "inputs": parts[1][1:], "level": parts[2][1:], "entry": (begin, end)}
    spans["index"] = parts[3][1:] if len(parts) > 3 else (parts[2][2], parts[2][2])
    index = body[3] if len(body) > 3 and body[3] is not None else 0
    return Entry(number, name, body[0], body[1], body[2], index, spans, DEMAND in value[2:])


def sessions_in(path: str, text: str) -> Sessions:
    """The sessions of a file's text."""
    try:
        if text.startswith(MARK):
            raise Refused(f"{path}, line 1: a byte order mark stands before the list, which JSON doesn't allow; save the file without it")
        items = list(islice(items_in(text, 0, CAREFUL), MOST_ENTRIES + 1))
        if len(items) > MOST_ENTRIES:
            raise Refused(f"{path} has more than {MOST_ENTRIES:,} sessions: play it in parts, by saxtegun split")
        end = after_space(text, text.index("]", items[-1][2] if items else 0) + 1)
        if end != len(text):
            raise json.JSONDecodeError("something stands after the list", text, end)
        return Sessions(path, text, [entry_of(path, text, number, *item) for number, item in enumerate(items)])
    except json.JSONDecodeError as why:
        comma = before_space(text, why.pos)
        if why.msg == "Expecting value" and text[comma : comma + 1] == "," and text[why.pos : why.pos + 1] in ("]", "}"):
            before, line = text.rfind("\n", 0, comma), text.count("\n", 0, comma) + 1
            raise Refused(f"{path}, line {line}, letter {comma - before}: no JSON list of sessions (nothing follows the comma there, which JSON doesn't allow)") from None
        raise Refused(f"{path}, line {why.lineno}, letter {why.colno}: no JSON list of sessions ({why.msg})") from None
    except (ValueError, RecursionError) as why:
        raise Refused(f"{path}: no JSON list of sessions ({why})") from None


def read_sessions(path: str) -> Sessions:
    """The sessions of a file."""
    try:
        return sessions_in(path, read_text(path, MOST_BYTES))
    except TooLong:
        raise Refused(f"{path} has more than {MOST_BYTES // 2**20} MiB: play it in parts, by saxtegun split") from None


def changed(sessions: Sessions, changes: Mapping[int, Tuple[str, Union[str, int, List[Input]]]]) -> str:
    """The text of a sessions file with other sources, inputs, levels or indices: `changes` maps a session's number to the part that is changed and what it is then.
    All else stays letter by letter."""
    pieces, at = [], 0
    for number in sorted(changes):
        part, new = changes[number]
        begin, end = sessions.entries[number].spans[part]
        # an index that isn't there follows the level
        pieces += [sessions.text[at:begin], ", " if begin == end else "", json.dumps(new, ensure_ascii=False)]
        at = end
    return "".join([*pieces, sessions.text[at:]])


def fits(name: str, pattern: str) -> bool:
    """Whether a name is that of a pattern: the same, or like it where `*`, `?` and `[..]` stand for letters."""
    return name == pattern or fnmatchcase(name, pattern)


def unfitting(entries: Sequence[Entry], patterns: Sequence[str]) -> List[str]:
    """The patterns that fit no name of these entries."""
    return [pattern for pattern in patterns if not any(fits(it.name, pattern) for it in entries)]


def chosen(sessions: Sessions, patterns: Optional[Sequence[str]]) -> List[Entry]:
    """The entries whose names fit one of these patterns, of which each must fit something; all entries where none are given. A pattern that is a name stands
    for that name alone."""
    if patterns is None:
        return sessions.entries
    for pattern in unfitting(sessions.entries, patterns):
        raise Refused(f"{sessions.path} has no session named {cut(pattern)!r}")
    names = {it.name for it in sessions.entries}
    return [entry for entry in sessions.entries if any(entry.name == it if it in names else fits(entry.name, it) for it in patterns)]


def check_name(name: str) -> None:
    """Refuses a name of the command line that isn't UTF-8, which no file can hold."""
    if LONE_SURROGATE.search(name):
        raise Refused(f"the name {cut(name)!r} is not UTF-8")


def guard_size(path: str, text: str, count: int, remedy: str) -> None:
    """Refuses to write a sessions file that could not be played any more. `remedy` says what to do then."""
    if count > MOST_ENTRIES:
        raise Refused(f"{path} would have {count:,} sessions, and a sessions file has at most {MOST_ENTRIES:,}: nothing is written; {remedy}")
    size = len(text.encode())
    if size > MOST_BYTES:
        raise Refused(f"{path} would have {size:,} bytes, and a sessions file has at most {MOST_BYTES:,}: nothing is written; {remedy}")


def with_more(old: Sessions, new: Sequence[str]) -> str:
    """The text of a sessions file with more entries behind its own."""
    close = old.text.rstrip().rindex("]")
    head = old.text[:close].rstrip()
    return head + (",\n" if old.entries else "\n") + ",\n".join(new) + "\n" + old.text[close:]


def read_or_new(path: str) -> Sessions:
    """The sessions of a file, and none where it isn't there."""
    return read_sessions(path) if os.path.exists(path) else Sessions(path, "[]\n", [])


def value_of(entry: Entry) -> List[Any]:
    """An entry as a sessions file has it."""
    return [entry.name, [entry.source, entry.inputs, entry.level, entry.index]]


def demands_of(entry: Entry) -> List[str]:
    """What stands behind the body of an entry, by which it must be solved."""
    return [DEMAND] if entry.is_solved_wanted else []


def written_entry(entry: Entry) -> str:
    return json.dumps(value_of(entry), ensure_ascii=False, separators=(",", ":"))


def written(entries: Sequence[Entry]) -> str:
    """A sessions file of entries."""
    return "[\n" + ",\n".join(map(written_entry, entries)) + "\n]\n"
