"""Splits a sessions file into parts, to be played separately and joined again by
`saxtegun join`.

FOLDER must not be there yet. Each part is a sessions file, FOLDER/NUMBER.json,
where NUMBER is that of its first session in SESSIONS. The parts have about
equally many inputs, so that they end together. Entries are copied letter by
letter, so the program judges them as in SESSIONS. SESSIONS may be larger than a
file that the program takes; a part must not be.

Exit status: 0, or 2 if SESSIONS is no list or a part would be too large."""
from __future__ import annotations

import json
import os
import shutil
import tempfile
from argparse import ArgumentParser, Namespace
from bisect import bisect_left
from itertools import accumulate
from typing import Any, List, Sequence, Tuple

from saxtegun.commands import Refused
from saxtegun.files import MIB, read_text
from saxtegun.sessions import MOST_BYTES, MOST_ENTRIES, after_space

USAGE = "split SESSIONS PARTS FOLDER"
READER = json.JSONDecoder()
# So many bytes are cut into parts at most, all of which are held at once.
MOST_SPLIT = 256 * MIB


def add_words(words: ArgumentParser) -> None:
    words.add_argument("sessions", metavar="SESSIONS")
    words.add_argument("parts", metavar="PARTS", type=int, help="how many, 1 or more")
    words.add_argument("folder", metavar="FOLDER")


def cost_of(entry: Any) -> int:
    """What an entry costs, whatever it is: its inputs, and one for its start."""
    session = entry[1] if isinstance(entry, list) and len(entry) > 1 else None
    inputs = session[1] if isinstance(session, list) and len(session) > 1 else None
    return 1 + (len(inputs) if isinstance(inputs, list) else 0)


def bounds_of(costs: Sequence[int], count: int) -> List[int]:
    """Where parts of about the same cost begin, and the end: each has an entry, where there are as many."""
    total, so_far = sum(costs), list(accumulate(costs, initial=0))
    bounds = [0]
    for number in range(1, count):
        wanted = total * number / count
        behind = bisect_left(so_far, wanted)
        nearest = min((behind - 1, behind), key=lambda it: abs(so_far[it] - wanted))
        bounds.append(min(max(nearest, bounds[-1] + 1), len(costs) - (count - number)))
    return [*bounds, len(costs)]


def entries_in(text: str) -> Tuple[List[str], List[int]]:
    """The texts of the entries of a list, and what each costs."""
    values = json.loads(text)
    if not isinstance(values, list):
        raise ValueError("it is another value")
    texts, at = [], text.index("[") + 1
    for _ in values:
        begin = after_space(text, at)
        end = READER.raw_decode(text, begin)[1]
        texts.append(text[begin:end])
        at = after_space(text, end) + 1
    return texts, [*map(cost_of, values)]


def write_parts(count: int, texts: Sequence[str], costs: Sequence[int], folder: str) -> None:
    """Writes the parts into a folder beside, which gets its name once all of them are there."""
    room = tempfile.mkdtemp(prefix=".saxtegun-", dir=os.path.dirname(os.path.abspath(folder)))
    try:
        os.chmod(room, 0o755)
        bounds = bounds_of(costs, count)
        for first, behind in zip(bounds, bounds[1:]):
            data = ("[\n" + ",\n".join(texts[first:behind]) + "\n]\n").encode()
            if behind - first > MOST_ENTRIES or len(data) > MOST_BYTES:
                raise Refused(f"the part from session {first} on is larger than a file may be: ask for more parts")
            with open(os.path.join(room, f"{first:08}.json"), "wb") as file:
                file.write(data)
        os.rename(room, folder)
    finally:
        shutil.rmtree(room, ignore_errors=True)


def main(given: Namespace) -> int:
    if given.parts < 1:
        raise Refused("PARTS must be 1 or more")
    try:
        texts, costs = entries_in(read_text(given.sessions, MOST_SPLIT))
    except (ValueError, RecursionError) as why:
        raise Refused(f"{given.sessions} is no JSON list: {why}") from None
    if os.path.exists(given.folder):
        raise Refused(f"{given.folder} is there already")
    try:
        # no part is empty, but for a file without entries
        write_parts(max(1, min(given.parts, len(texts))), texts, costs, given.folder)
    except OSError as why:
        raise Refused(f"{given.folder} can't be written: {why.strerror}") from None
    return 0
