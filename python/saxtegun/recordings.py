"""Recordings that were found in a text as entries of a sessions file: their names, those that are there already, and what is said of the rest."""
from __future__ import annotations

import json
from typing import Callable, Dict, Iterable, List, Optional, Sequence, Set, Tuple

from saxtegun.budget import EXPLAINING, UsedUp
from saxtegun.commands import Refused, fold, say
from saxtegun.files import read_any_text
from saxtegun.descriptions import description_of, expected
from saxtegun.games import UNTITLED, title_of
from saxtegun.levelsets import first_level
from saxtegun.recording_search import NAMELESS, Findings, Found, find
from saxtegun.sessions import Entry, Sessions, sessions_in
from saxtegun.texts import plain_text

HOW = "in PuzzleScript's editor play, press Ctrl+J, and copy all that the console prints then"
COMPILER = "what the compiler printed, which is no recording: one is printed below it, by Ctrl+J after you played"
CUT_OFF = "a recording that is cut off: copy it again, up to its last bracket"
OBJECTS = 'it has objects in braces, and a recording is a list, ["name", ["source", [inputs], "level", index]]'


def skipped_told(what: str) -> str:
    return {"compiler": COMPILER, "cut-off": CUT_OFF}.get(what, f"a recording with a fault: {what}")


def nothing_told(text: str) -> str:
    """Why a text has no recording, and what to do."""
    if not text.strip():
        return f"it is empty: {HOW}"
    if '"source"' in text and "{" in text:
        return f"{OBJECTS}: {HOW}"
    if {"objects", "levels"} <= set(description_of(text).lines.headings):
        return f"it is a game's text: {HOW}; or record by `saxtegun play GAME.txt --save NAME SESSIONS.json`"
    return f"it has no recording: {HOW}"


def is_broken(findings: Findings) -> bool:
    """Whether a recording was skipped that isn't whole."""
    return any(it.what != "compiler" for it in findings.skipped)


def read_findings(verb: str, path: str) -> Findings:
    """What a file holds; what is skipped is said. Refused where it holds no recording."""
    text = read_any_text(path)
    place = "standard input" if path == "-" else path
    try:
        findings = find(text)
    except Refused as why:
        raise Refused(f"{place}: {why}") from None
    for it in findings.skipped:
        say(f"{verb}: {place}, line {it.line}: skipped {skipped_told(it.what)}")
    if not findings.found:
        raise Refused(f"{place}: {'no recording is left: ' + HOW if findings.skipped else nothing_told(text)}")
    return findings


class Names:
    """Names of which no two are alike. Each keeps the number that it got last, so that many of one name aren't counted anew."""

    def __init__(self, taken: Iterable[str]) -> None:
        self.taken: Set[str] = set(taken)
        self.numbers: Dict[str, int] = {}

    def free(self, name: str) -> str:
        """Takes a name that no other has: itself, or with a number."""
        number, free = self.numbers.get(name, 1), name
        while free in self.taken:
            number += 1
            free = f"{name} ({number})"
        self.numbers[name] = number
        self.taken.add(free)
        return free


def own_name(name: str, entry: Entry) -> str:
    """The name of a recording: its own; or the title with the level, where it has none or the title, as the editor writes it. Where there is no time left to
    read titles, it is its own too, or that of a game without a title."""
    try:
        with EXPLAINING.spent():
            EXPLAINING.look()
            title = title_of(entry.source)
            return f"{title}, level {first_level(entry)}" if name in NAMELESS or fold(name) == fold(title) else name
    except UsedUp:
        return name or UNTITLED


def entry_text(name: str, it: Found) -> str:
    return f"[{', '.join([json.dumps(name, ensure_ascii=False), it.body, *it.rest])}]"


def as_sessions(path: str, found: Sequence[Found], name_of: Callable[[str, Entry], str]) -> Sessions:
    """Recordings as a sessions file has them, under their names."""
    unnamed = sessions_in(path, "[" + ",".join(entry_text("", it) for it in found) + "]").entries
    # a text of a stranger may have as many sources as recordings
    with expected(it.source for it in unnamed):
        names = [name_of(it.name, entry) for it, entry in zip(found, unnamed)]
    return sessions_in(path, "[\n" + ",\n".join(entry_text(name, it) for name, it in zip(names, found)) + "\n]\n")


class Known:
    """Recordings, each found by what it is, whatever its name."""

    def __init__(self, entries: Iterable[Entry]) -> None:
        self.of: Dict[Tuple[object, ...], Entry] = {}
        # of a game that many have as their source one text
        self.texts: Dict[str, str] = {}
        for it in entries:
            self.like(it)

    def like(self, entry: Entry) -> Optional[Entry]:
        """The one of these that is the same recording and demands as much; None where there is none, and then it is one of these."""
        if entry.source not in self.texts:
            self.texts[entry.source] = plain_text(entry.source)
        key = (self.texts[entry.source], tuple(entry.inputs), entry.level, entry.index)
        it = self.of.get(key)
        if it is None or (entry.is_solved_wanted and not it.is_solved_wanted):
            self.of[key] = entry
            return None
        return it


def named(given: Optional[str], entries: Sequence[Entry], taken: Iterable[str]) -> List[str]:
    """A name for each entry that no other has: the one that is given, or its own."""
    names = Names(taken)
    return [names.free(given or it.name) for it in entries]
