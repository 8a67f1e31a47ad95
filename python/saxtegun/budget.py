"""One budget of time for all that explains what was played, so that a file of an enemy's can't make explaining cost more than playing. Where it is
used up, the answers stay, and what would explain them says that it was not looked at."""
from __future__ import annotations

from contextlib import contextmanager
from time import monotonic
from typing import Iterable, Iterator, Optional, TypeVar

# So many seconds a command explains: far more than honest suites need.
SECONDS = 60.0
NOT_LOOKED_AT = f"not looked at further, since explaining took {SECONDS:.0f} s already"
Item = TypeVar("Item")


class UsedUp(Exception):
    """The time to explain ended in the midst of it."""


class Budget:
    """Seconds that are left, as of when they were last taken off; `begin` is since when more are spent, or None."""

    def __init__(self, seconds: float) -> None:
        self.left = seconds
        self.begin: Optional[float] = None

    def seconds_left(self) -> float:
        return self.left - (0 if self.begin is None else monotonic() - self.begin)

    def is_left(self) -> bool:
        return self.seconds_left() > 0

    def look(self) -> None:
        """Ends what explains, where there is no time left for it. What isn't done to explain goes on."""
        if self.begin is not None and not self.is_left():
            raise UsedUp

    @contextmanager
    def spent(self) -> Iterator[None]:
        """Takes off how long this lasts, once where it lasts within another."""
        if self.begin is not None:
            yield
            return
        self.begin = begin = monotonic()
        try:
            yield
        finally:
            self.begin = None
            self.left -= monotonic() - begin

    def each(self, items: Iterable[Item]) -> Iterator[Item]:
        """These items, with a look at what is left before each."""
        for it in items:
            self.look()
            yield it


# That of this process. `saxtegun test --watch` begins it anew at each save.
EXPLAINING = Budget(SECONDS)
