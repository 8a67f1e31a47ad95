"""Games with a clock, played without it: a recording holds its ticks as inputs. Each answer says so."""
from __future__ import annotations

from functools import lru_cache
from typing import Dict, List

from saxtegun.commands import fold, say
from saxtegun.descriptions import NOTHING, description_of
from saxtegun.games import CLOCK
from saxtegun.sessions import Entry

WITHOUT_CLOCK = "played without realtime_interval: ticks as recorded"
# What was said of it in this process, which is said once.
SAID: List[str] = []


@lru_cache(maxsize=8)
def without_clock(source: str) -> str:
    """A source without the lines of its prelude that say how often a tick is; each stays as an empty line. No comment begins behind a keyword."""
    raw = source.split("\n")
    told = description_of(source) if CLOCK in fold(source) else NOTHING
    clocks = {it.number for it in told.prelude if it.keyword == CLOCK}
    for line in (it for it in told.lines if it.number in clocks):
        raw[line.number - 1] = raw[line.number - 1].rpartition(line.text)[0]
    return "\n".join(raw)


def without_ticking(entry: Entry) -> Entry:
    """An entry as it is played by the ticks that were recorded."""
    source = without_clock(entry.source)
    if source != entry.source and not SAID:
        SAID.append(WITHOUT_CLOCK)
        say(f"saxtegun: {WITHOUT_CLOCK}")
    return entry._replace(source=source)


def ticks_told() -> str:
    """That games were played without their clock, behind the words of an answer, or nothing."""
    return f"; {WITHOUT_CLOCK}" if SAID else ""


def ticks_property(is_told: bool = False) -> Dict[str, str]:
    """The same as a property of a JUnit file; `is_told`: whoever calls says that what is there was played so."""
    name, value = WITHOUT_CLOCK.split(": ")
    return {name: value} if SAID or is_told else {}


def forget() -> None:
    """Lets what is played next say it again."""
    SAID.clear()
