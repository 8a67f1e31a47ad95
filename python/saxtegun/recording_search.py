"""Recordings in any text: what an editor's console prints, with whatever stands around it, or published test data.

A recording is a list [source, inputs, level, index, seed], mostly in an entry [name, [..]]. It is looked for wherever a list begins with a text, so headings,
prose, timestamps and code fences are passed over. What was quoted or escaped once is read as it was before: as a text of JavaScript, or in HTML. What a compiler
printed, and what is cut off or no recording, is skipped and told. Each letter is read a few times at most, whatever the text is."""
from __future__ import annotations

import json
import re
from typing import Any, Dict, List, NamedTuple, Optional, Tuple

from saxtegun.commands import Refused
from saxtegun.javascript import BODIES, LAST, ROUNDS, behind, skip_space, token_at, unescaped
from saxtegun.sessions import MOST_ENTRIES, fault_of, is_number

# What may stand between a bracket and a text, in so many rounds; what is looked for first is what stands there most often.
BREAK = rf"[\s>]*(?:(?:<br\s*/?>|&nbsp;)[\s>]*){ROUNDS}"
ESCAPED = rf"\s*(?:\\[nrt]\s*){ROUNDS}"
QUOTES = "\"'`\u201c\u201d\u201e"
# Where a recording may begin: a list whose first item is a text; such a list as a text, or escaped; and such a list in HTML.
BEGIN = re.compile(
    rf"(?P<list>\[(?={BREAK}[{QUOTES}]))|(?P<quoted>[\"'`](?={ESCAPED}\[{ESCAPED}\\?[\"'`]))"
    rf"|(?P<escaped>\[(?={ESCAPED}\\[\"']))|(?P<html>\[(?={BREAK}&(?:quot|#34|apos|#39);))"
)
# The rest of a text that was escaped and has lost its quotes.
REST = re.compile(rf"[^\"\\\n]*(?:\\.[^\"\\\n]*){ROUNDS}")
# So many letters anything has that is taken, or is skipped by name.
LEAST_LETTERS = 9
# An entry holds a body, which holds its inputs; behind one that is cut off another may begin.
MOST_DEPTH = 8
# Letters of HTML: by their numbers, and by the names that programs write which make HTML of a text.
HTML_LETTER = re.compile("&#([0-9]+);?|&#[xX]([0-9a-fA-F]+);?|&(quot|lt|gt|amp|nbsp);?|&(apos);")
HTML_NAMES = {"quot": '"', "apos": "'", "lt": "<", "gt": ">", "amp": "&", "nbsp": "\xa0"}
# What the numbers from 128 on stand for there.
FROM_128 = (
    "\u20ac\x81\u201a\u0192\u201e\u2026\u2020\u2021\u02c6\u2030\u0160\u2039\u0152\x8d\u017d\x8f\x90\u2018\u2019\u201c\u201d\u2022\u2013\u2014\u02dc\u2122\u0161\u203a\u0153\x9d\u017e\u0178"
)
# In so many letters of a source its first heading is looked for, where it is cut off.
MOST_OF_A_HEAD = 4000
HEADING = re.compile("objects", re.I)
# A recording without a name of its own.
NAMELESS = ("", "untitled test")


class Found(NamedTuple):
    """A recording: the line on which it begins, its name, its body as JSON, and what stands behind in its entry as JSON."""

    line: int
    name: str
    body: str
    rest: Tuple[str, ...] = ()


class Skipped(NamedTuple):
    """What is no recording, or none that is whole: the line on which it begins, and what it is: `compiler`, `cut-off`, or a sentence on its fault."""

    line: int
    what: str


class Findings(NamedTuple):
    """What a text holds, in its order."""

    found: List[Found]
    skipped: List[Skipped]


class Open(NamedTuple):
    """A list that is being read: where it begins, and its items as JSON."""

    at: int
    items: List[str]


def letter_of_html(found: "re.Match[str]") -> str:
    if found[3] or found[4]:
        return HTML_NAMES[found[3] or found[4]]
    digits = (found[1] or found[2]).lstrip("0")
    number = int(digits or "0", 10 if found[1] else 16) if len(digits) < 8 else LAST + 1
    if 128 <= number < 160:
        return FROM_128[number - 128]
    return "\ufffd" if number == 0 or number > LAST or 0xD800 <= number < 0xE000 else chr(number)


def is_body(value: Any) -> bool:
    """Whether a value is made as the body of a recording is."""
    return isinstance(value, list) and len(value) > 2 and isinstance(value[0], str) and isinstance(value[1], list) and isinstance(value[2], str)


def is_of_a_compiler(value: Any) -> bool:
    """Whether a value is [source, messages, their number], as a compiler's test has it."""
    return isinstance(value, list) and len(value) == 3 and isinstance(value[0], str) and isinstance(value[1], list) and is_number(value[2], 2**64 - 1)


def value_of(items: List[str]) -> Any:
    return json.loads(f"[{','.join(items)}]")


# So much is skipped at most in a text: what a compiler printed stands before many recordings.
MOST_SKIPPED = 2 * MOST_ENTRIES


class Search:
    """A search through a text. `outer` is that of the text in which this one was quoted or escaped, which is not unquoted again: both find together."""

    def __init__(self, text: str, first_line: int = 1, outer: "Optional[Search]" = None) -> None:
        self.text, self.first_line, self.is_inner = text, first_line, outer is not None
        self.findings: Findings = outer.findings if outer else Findings([], [])
        self.counted, self.line = 0, first_line
        self.last_comment = text.rfind("*/")
        self.heading = -1
        # up to where each quote was read in vain
        self.in_vain: Dict[str, int] = {}

    def line_of(self, at: int) -> int:
        """The line of a place; places are asked for in their order, or nearly so."""
        if at < self.counted:
            return self.line - self.text.count("\n", at, self.counted)
        self.line += self.text.count("\n", self.counted, at)
        self.counted = at
        return self.line

    def run(self) -> Findings:
        at = 0
        while True:
            begin = BEGIN.search(self.text, at)
            if begin is None:
                return self.findings
            if begin.lastgroup == "list":
                at = self.read_list(begin.start())
            elif self.is_inner:
                at = begin.end()
            elif begin.lastgroup == "html":
                self.read_inner(begin.start(), HTML_LETTER.sub(letter_of_html, self.text[begin.start() :]))
                return self.findings
            else:
                at = self.read_escaped(begin.start()) if begin.lastgroup == "escaped" else self.read_quoted(begin.start())

    def read_inner(self, at: int, text: str) -> bool:
        """Searches a text that was quoted; answers whether something was in it."""
        before = self.count
        Search(text, self.line_of(at), self).run()
        return self.count > before

    @property
    def count(self) -> int:
        return len(self.findings.found) + len(self.findings.skipped)

    def check_count(self) -> None:
        if len(self.findings.found) == MOST_ENTRIES or len(self.findings.skipped) == MOST_SKIPPED:
            raise Refused(f"it has more than {MOST_ENTRIES:,} recordings, whole or not, which no sessions file takes")

    def skip(self, at: int, what: str) -> None:
        """Notes what is no whole recording."""
        self.check_count()
        self.findings.skipped.append(Skipped(self.line_of(at), what))

    def has_read(self, at: int, begin: int, end: int) -> bool:
        """Searches what was escaped; answers whether something was in it."""
        text = unescaped(self.text[begin:end])
        return text is not None and self.read_inner(at, text)

    def read_escaped(self, at: int) -> int:
        """Reads what was escaped once and has lost its quotes; where the search goes on."""
        end = behind(REST, self.text, at)
        # the last bracket may begin a list without escapes
        return end if end - at >= LEAST_LETTERS and self.has_read(at, at, end) else max(self.text.rfind("[", at + 1, end), at + 1)

    def read_quoted(self, at: int) -> int:
        """Reads what was quoted once; where the search goes on. What stands behind an escaped quote was read with the quote before it, and so isn't read again."""
        quote = self.text[at]
        if at < self.in_vain.get(quote, 0):
            return at + 1
        end = behind(BODIES[quote], self.text, at + 1)
        if self.text[end : end + 1] == quote and end - at >= LEAST_LETTERS and self.has_read(at, at + 1, end):
            return end + 1
        self.in_vain[quote] = end
        return at + 1

    def read_list(self, begin: int) -> int:
        """Reads the list that begins here, as far as it goes; where the search goes on."""
        lists: List[Open] = []
        at = begin
        while True:
            token = token_at(self.text, at)
            if token is None or (token.kind == "[" and len(lists) == MOST_DEPTH):
                self.tell_cut(lists, at)
                return max(at, begin + 1)
            at = token.end
            if token.kind == "[":
                lists.append(Open(token.at, []))
            elif token.kind == "]":
                if self.close(lists):
                    return at
            elif not lists:
                return at  # inputs that stand alone
            else:
                lists[-1].items.append(token.json)
            at = skip_space(self.text, at, self.last_comment)

    def close(self, lists: List[Open]) -> bool:
        """Ends the innermost list; answers whether the outermost has ended, or a recording in one that is cut off."""
        it = lists.pop()
        if not lists:
            self.tell(it)
            return True
        if len(lists) > 1 and len(it.items) > 1 and is_entry(value_of(it.items)):
            self.tell_cut(lists, it.at)
            self.tell(it)
            return True
        lists[-1].items.append(f"[{','.join(it.items)}]")
        return False

    def tell(self, it: Open) -> None:
        """Takes a list that is a recording, and says which isn't a whole one; any other list is passed over."""
        value = value_of(it.items)
        if is_entry(value):
            self.take(it.at, value, it.items[1], tuple(it.items[2:]))
        elif is_body(value):
            self.take(it.at, ["", value], f"[{','.join(it.items)}]")
        elif is_of_a_compiler(value) or (len(value) == 2 and is_of_a_compiler(value[1])):
            self.skip(it.at, "compiler")

    def take(self, at: int, entry: Any, body: str, rest: Tuple[str, ...] = ()) -> None:
        """Takes an entry, whose body and further elements stand there as JSON, unless it has a fault."""
        self.check_count()
        fault = fault_of(entry)
        if fault:
            self.skip(at, fault)
        else:
            self.findings.found.append(Found(self.line_of(at), entry[0], body, rest))

    def tell_cut(self, lists: List[Open], at: int) -> None:
        """Takes a recording of which only the last brackets are missing, and says which is cut off: also one that is cut in a further text."""
        if not lists:
            return
        is_in_text = self.text[at : at + 1] in BODIES
        # an entry of which the last bracket is missing, or the last two behind its index
        items = [part.items for part in lists]
        if len(items) == 2 and len(items[1]) > 3:
            items = [[*items[0], f"[{','.join(items[1])}]"]]
        is_whole = len(items) == 1 and is_entry(value_of(items[0]))
        if is_whole and not is_in_text:
            self.take(lists[0].at, value_of(items[0]), items[0][1], tuple(items[0][2:]))
        elif is_whole or self.has_heading(lists[0].at, at):
            self.skip(lists[0].at, "cut-off")

    def has_heading(self, begin: int, at: int) -> bool:
        """Whether a heading of a source stands in what was read, or soon behind it in its line."""
        if self.heading < begin:
            found = HEADING.search(self.text, begin)
            self.heading = found.start() if found else len(self.text)
        return self.heading < min(at + MOST_OF_A_HEAD, len(self.text)) and self.text.find("\n", at, self.heading) < 0


def is_entry(value: Any) -> bool:
    """Whether a value is made as an entry is: a name, and the body of a recording."""
    return isinstance(value, list) and len(value) > 1 and isinstance(value[0], str) and is_body(value[1])


def find(text: str) -> Findings:
    """The recordings of a text, and what was skipped in it."""
    return Search(text).run()
