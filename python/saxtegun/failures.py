"""What did not pass, for those who read it elsewhere: a Markdown summary, and the annotations of GitHub."""
from __future__ import annotations

import re
from typing import Dict, Iterable, List, NamedTuple, Tuple

from saxtegun.commands import cut, plural, printable
from saxtegun.logs import guarded, without_marks

MOST_FAILURES = 20
# So many bytes a summary tells of a failure at most: GitHub shows none of a summary that has more than 1 MiB.
MOST_OF_FAILURE = 45_000


class Failure(NamedTuple):
    """A session that did not pass: its name, how it closed, a sentence, lines below it, and the file and line of a source where it has one."""

    name: str
    close: str
    sentence: str
    below: List[str]
    file: str
    line: int


def once(failures: Iterable[Failure]) -> List[Failure]:
    """Failures, of which those that one fault of a game causes are one."""
    of: Dict[Tuple[object, ...], List[Failure]] = {}
    for place, it in enumerate(failures):
        of.setdefault((it.sentence, *it.below, it.file) if it.close == "refused" else (place,), []).append(it)
    return [them[0]._replace(name=them[0].name + (f" and {plural(len(them) - 1, 'more session')}" if len(them) > 1 else "")) for them in of.values()]


def escaped_in_table(text: str) -> str:
    """A text without any letter that Markdown reads otherwise."""
    return re.sub(r"[&<>\"'\\`*_{}\[\]()#+!|~@:-]|(?<=[wW]{3})\.", lambda it: f"&#{ord(it[0])};", text)


def in_table(text: str) -> str:
    """A text of a stranger in a cell of a table of Markdown."""
    return escaped_in_table(cut(printable(text)))


def fenced(lines: Iterable[str]) -> str:
    """Lines as a block of code, whose fence is longer than any in it. Who writes it into a log, and not into a summary, runs no command by that."""
    text = "\n".join(guarded(printable(it)) for it in lines)
    fence = "`" * max(3, 1 + max((len(it) for it in re.findall("`+", text)), default=0))
    return f"{fence}text\n{text}\n{fence}\n"


def within(lines: List[str], most: int) -> List[str]:
    """The first of some lines, as many as are a block of at most so many bytes, and one that says what is cut."""
    size = fence = 0
    for place, text in enumerate(guarded(printable(it)) for it in lines):
        size += len(text.encode()) + 1
        fence = max([fence, *(len(it) for it in re.findall("`+", text))])
        if size + 2 * fence > most:
            return [*lines[:place], f"and {plural(len(lines) - place, 'more line')}: it is cut here, since GitHub shows no summary of more than 1 MiB"]
    return lines


def markdown(failures: List[Failure], counts: str) -> str:
    """A job's summary: a table of failures, and below it what was reached beside what was recorded."""
    parts = [f"**{escaped_in_table(counts)}**\n"]
    if failures:
        rows = [f"| {in_table(it.name)} | {it.close} | {in_table(it.sentence)} |" for it in failures[:MOST_FAILURES]]
        more = [f"\nAnd {plural(len(failures) - MOST_FAILURES, 'more failure')}."] if len(failures) > MOST_FAILURES else []
        parts.append("\n".join(["| session | close | why |", "|---|---|---|", *rows, *more]) + "\n")
        parts += [f"{in_table(it.name)}\n\n{fenced(within(it.below, MOST_OF_FAILURE))}" for it in failures[:MOST_FAILURES] if it.below]
    return "\n".join(parts)


def escaped(text: str, is_property: bool = False) -> str:
    """A text as GitHub's commands have it."""
    text = without_marks(text).replace("%", "%25").replace("\r", "%0D").replace("\n", "%0A")
    return text.replace(":", "%3A").replace(",", "%2C") if is_property else text


def annotation(failure: Failure) -> str:
    """A failure as GitHub shows it beside the code."""
    place = f"file={escaped(printable(failure.file), True)},line={failure.line}," if failure.file else ""
    below = "\n".join([cut(printable(failure.sentence)), *map(printable, failure.below)])
    return f"::error {place}title={escaped(cut(printable(failure.name)), True)}::{escaped(below)}"
