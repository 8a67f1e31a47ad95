"""Over which text a session is played: its own, or that of a game at hand where its own is the empty text. Where these are two texts, each answer says so."""
from __future__ import annotations

from functools import lru_cache
from shlex import quote
from typing import Dict, Iterable, List, NamedTuple, Optional, Sequence, Tuple

from saxtegun.budget import NOT_LOOKED_AT, UsedUp
from saxtegun.commands import Refused, cut, plural, say
from saxtegun.descriptions import Undescribed
from saxtegun.files import MARK, read_text
from saxtegun.games import titles_of
from saxtegun.sessions import Entry, Sessions

# What Unicode calls white space; Python's own idea of it has four letters more.
WHITE = "\t\n\x0b\x0c\r \x85\xa0\u1680\u2000\u2001\u2002\u2003\u2004\u2005\u2006\u2007\u2008\u2009\u200a\u2028\u2029\u202f\u205f\u3000"
# So many names are told.
NAMES_TOLD = 3
# So many bytes a source has at most; a longer one is refused, whatever stands at its end.
MOST_OF_A_SOURCE = 2**20


class GameText(NamedTuple):
    """The text of a game at hand, and its file."""

    path: str
    source: str


def split_files(files: List[str]) -> Tuple[str, List[str]]:
    """The game's text, or the empty text, and the sessions files."""
    game = files[0] if not files[0].endswith(".json") and files[0] != "-" else ""
    if game and len(files) == 1:
        raise Refused(f"{game} is taken for a game's text, since it doesn't end with .json, and no sessions file is named")
    return game, files[1:] if game else files


def read_named(path: str) -> GameText:
    """The text of a game. Refused where it is empty, which no game is."""
    source = read_text(path).lstrip(MARK)
    if not source.strip():
        raise Refused(f"{path} is empty: it is to be a game's text")
    return GameText(path, source)


def read_game(path: Optional[str]) -> Optional[GameText]:
    """The text at hand, or None where none is named."""
    return read_named(path) if path else None


# the text at hand is held against each of many
@lru_cache(maxsize=8)
def plain_text(source: str) -> str:
    """A source without what two that are the same may differ in: how lines end, and the white space of a game behind the last. One that is too long to be
    played stays as it is, and so is the same as no other that is played."""
    return source if len(source.encode("utf-8", "surrogatepass")) > MOST_OF_A_SOURCE else source.replace("\r\n", "\n").rstrip(WHITE)


def same_text(one: str, other: str) -> bool:
    """Whether two sources are the same, but for how lines end and the white space of a game behind the last."""
    return plain_text(one) == plain_text(other)


def over(sessions: Sessions, game: Optional[GameText]) -> Sessions:
    """The sessions with the text at hand as the source of each whose source is the empty text. The text of the file stays as it is."""
    if game is None:
        return sessions
    return sessions._replace(entries=[it if it.source else it._replace(source=game.source) for it in sessions.entries])


def of_another_text(entries: Sequence[Entry], game: Optional[GameText]) -> List[Entry]:
    """The entries that bring a source of their own that isn't the text at hand."""
    return [it for it in entries if game and it.source and not same_text(it.source, game.source)]


def file_of(entry: Entry, game: Optional[GameText]) -> str:
    """The file that holds the text of an entry, so that a line of it can be named there; the empty text where that is the sessions file."""
    return game.path if game and same_text(entry.source, game.source) else ""


def names_told(entries: Sequence[Entry]) -> str:
    names = ", ".join(cut(it.name) for it in entries[:NAMES_TOLD])
    return f"{names}, .." if len(entries) > NAMES_TOLD else names


def remedy(path: str, others: Sequence[Entry], game: GameText) -> str:
    """What makes sessions follow the text at hand that have one of their own. None is proposed that would take another game's text away."""
    try:
        titles, (title,) = titles_of(it.source for it in others), titles_of([game.source])
    except (Undescribed, UsedUp) as why:
        return f"whether {'it is' if len(others) == 1 else 'they are'} of another game isn't known: {NOT_LOOKED_AT if isinstance(why, UsedUp) else why}"
    call = f"`saxtegun source {quote(game.path)} {quote(path)} --follow --in-place"
    if titles == {title} and title is not None:
        return f"{call}` makes {'it' if len(others) == 1 else 'them'} follow {game.path}"
    if title in titles or None in titles:
        return f"not all have {'a' if title is None else 'its'} title: with --only NAME behind it {call}` makes one follow that is of {game.path}"
    return "by its title it is of another game" if len(others) == 1 else "by their titles they are of other games"


def remark(path: str, others: Sequence[Entry], game: GameText) -> str:
    """That sessions have a text of their own which isn't the one at hand, and what makes them follow it."""
    has = "has" if len(others) == 1 else "have"
    what = f"{path}: {plural(len(others), 'session')} {has} another text than {game.path} ({names_told(others)})"
    return f"{what}; {remedy(path, others, game)}"


def say_others(verb: str, sessions: Sessions, game: Optional[GameText]) -> List[Entry]:
    """Says which sessions have another text than the one at hand; these."""
    others = of_another_text(sessions.entries, game)
    if game and others:
        say(f"{verb}: {remark(sessions.path, others, game)}")
    return others


def not_over(others: Sequence[Entry], game: Optional[GameText]) -> Dict[int, str]:
    """Why sessions with another text than the one at hand fail though they pass; by their numbers. They weren't played over that."""
    return {it.number: f"over its own text, and was not played over {game.path}" for it in others} if game else {}


def elsewhere_told(count: int) -> str:
    """How many sessions passed over a text of their own alone, behind how they were closed."""
    return f", {count} only over its own text" if count else ""


def say_untested(verb: str, entries: Iterable[Entry]) -> None:
    """Says how many sessions must be solved, where nothing looks whether they are."""
    say_demands(verb, sum(1 for it in entries if it.is_solved_wanted))


def say_demands(verb: str, count: int) -> None:
    if count:
        say(f"{verb}: {plural(count, 'session')} must be solved, which lines don't tell: saxtegun test looks whether {'it is' if count == 1 else 'they are'}")
