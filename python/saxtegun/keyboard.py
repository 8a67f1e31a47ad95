"""The keys of standard input, each as it is pressed where that is a terminal; and what else happens to a terminal: it gets another size, is left by
Ctrl-Z and taken up again."""
from __future__ import annotations

import os
import select
import signal
import sys
from contextlib import contextmanager, suppress
from typing import Any, Iterator, List

# No key: the terminal has to be drawn anew.
DRAW = "draw"
MOMENT = 0.05  # seconds within which the letters of an arrow come


def pass_over(number: int, frame: Any) -> None:
    """What a signal does that is told by its number."""


class Keyboard:
    """Standard input, where that is no terminal."""

    is_terminal = False

    def next(self) -> str:
        """A key: a letter, or the three of an arrow; the empty text where there are no more."""
        letter = self.letter()
        return letter + self.letter() + self.letter() if letter == "\x1b" and self.goes_on() else letter

    def letter(self) -> str:
        return os.read(0, 1).decode("latin-1")

    def goes_on(self) -> bool:
        """Whether a letter follows at once."""
        return True


class Terminal(Keyboard):
    """A terminal that tells each key as it is pressed."""

    is_terminal = True

    def __init__(self) -> None:
        import termios
        import tty

        self.termios, self.tty = termios, tty
        self.before: List[Any] = termios.tcgetattr(0)
        self.told, self.telling = os.pipe()
        for end in (self.told, self.telling):
            os.set_blocking(end, False)
        self.signals = (signal.SIGWINCH, signal.SIGTSTP, signal.SIGCONT)
        self.handlers = [signal.signal(it, pass_over) for it in self.signals]
        self.woken = signal.set_wakeup_fd(self.telling, warn_on_full_buffer=False)
        self.take()

    def take(self) -> None:
        """Has each key told, also those that were pressed before. A terminal may be gone by now."""
        with suppress(self.termios.error):
            self.tty.setcbreak(0, self.termios.TCSADRAIN)

    def give_back(self) -> None:
        with suppress(self.termios.error):
            self.termios.tcsetattr(0, self.termios.TCSADRAIN, self.before)

    def end(self) -> None:
        self.give_back()
        signal.set_wakeup_fd(self.woken)
        for it, handler in zip(self.signals, self.handlers):
            signal.signal(it, handler)
        os.close(self.told)
        os.close(self.telling)

    def goes_on(self) -> bool:
        return bool(select.select([0], [], [], MOMENT)[0])

    def next(self) -> str:
        """A key, or that the terminal has to be drawn anew."""
        while self.told in select.select([0, self.told], [], [])[0]:
            numbers = os.read(self.told, 4096)
            if signal.SIGTSTP in numbers:
                self.stop()
            if not set(self.signals).isdisjoint(numbers):
                self.take()
                return DRAW
        return super().next()

    def stop(self) -> None:
        """Stands still, as any program does at Ctrl-Z, until the shell takes it up again; meanwhile the terminal is as it was."""
        self.give_back()
        signal.signal(signal.SIGTSTP, signal.SIG_DFL)
        os.kill(os.getpid(), signal.SIGTSTP)
        signal.signal(signal.SIGTSTP, pass_over)


@contextmanager
def keyboard() -> Iterator[Keyboard]:
    """Keys as they are pressed; afterwards the terminal is as it was before."""
    if not sys.stdin.isatty():
        yield Keyboard()
        return
    terminal = Terminal()
    try:
        yield terminal
    finally:
        terminal.end()
