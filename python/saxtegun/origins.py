"""Where a report comes from: nothing that isn't given, so that the same files give the same page."""
from __future__ import annotations

import hashlib
from argparse import ArgumentParser, Namespace
from pathlib import Path
from typing import List, Optional

from saxtegun.commands import cut, plural
from saxtegun.programs import file_that_plays
from saxtegun.sessions import Sessions
from saxtegun.texts import GameText

VERSION = Path(__file__).resolve().parents[2] / "VERSION"
DIGITS = 16


def add_date(words: ArgumentParser) -> None:
    words.add_argument("--date", metavar="TEXT", help="a date for the page (none)")


def digest_of(data: bytes) -> str:
    return hashlib.sha256(data).hexdigest()[:DIGITS]


def left_out_told(count: int) -> str:
    """How many sessions a filter left out, behind how many there are."""
    return f"; {count} left out by --filter" if count else ""


def origin_of(sessions: Sessions, given: Namespace, played: str, game: Optional[GameText] = None, left_out: int = 0) -> List[str]:
    """The sentences of a page on where it comes from; `played` is the one on the lines or the program, `game` the text at hand, and so many sessions a filter
    left out."""
    content = f"; SHA-256 {digest_of(sessions.text.encode())}" if sessions.text else ""
    version = VERSION.read_text(encoding="utf-8").strip() if VERSION.is_file() else "of no version"
    date = [f"Date: {cut(given.date)}."] if given.date else []
    ticks = ["Played without realtime_interval: ticks as recorded."] if getattr(given, "ticks_as_recorded", False) else []
    text = [f"Game: {cut(Path(game.path).name)} (SHA-256 {digest_of(game.source.encode())})."] if game else []
    return [*date, *ticks, *text, f"Sessions: {cut(Path(sessions.path).name)} ({plural(len(sessions.entries), 'session')}{left_out_told(left_out)}{content}).", f"{cut(played)}, order {given.order}.", f"Written by saxtegun {version}."]


def program_told(words: List[str]) -> str:
    """A program by its name and its content."""
    path = file_that_plays(words)
    return f"Played by {path.name} (SHA-256 {digest_of(path.read_bytes())})" if path.is_file() else f"Played by {path.name}"
