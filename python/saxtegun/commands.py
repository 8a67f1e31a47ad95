"""How each verb is called, how it refuses and how it ends."""
from __future__ import annotations

import argparse
import gc
import io
import os
import re
import signal
import sys
import traceback
from typing import Any, Callable, NoReturn, Optional, TextIO

from saxtegun.logs import Log, is_log


class Refused(Exception):
    """What a verb says, in a sentence with the place, where it has no answer."""


SMALL = {ord(letter): letter.lower() for letter in "ABCDEFGHIJKLMNOPQRSTUVWXYZ"}
ORDERS = ("rows", "columns")
# So many letters of a name or a line of a source are told.
MOST_LETTERS = 200
# Behind so many blanks a terminal may begin a new row, where a stranger's words look like a line of ours; these letters show none either.
BLANKS = re.compile(" {4,}")
BLANK_LETTERS = frozenset("\u115f\u1160\u2800\u3164\uffa0")
MOST_WORKERS = 64
MOST_SECONDS = 1_000_000
# What ends this process, or its terminal, in a way that it can still tidy up.
ENDING = tuple(getattr(signal, it) for it in ("SIGTERM", "SIGHUP") if hasattr(signal, it))


def fold(text: str) -> str:
    """A name as names are compared: the case of ASCII letters is ignored, and of no others."""
    return text.translate(SMALL)


def printable(text: str) -> str:
    """A text of a stranger on a line of a terminal: what isn't printable, or is blank and no space, stands there by its number."""
    if text.isprintable() and BLANK_LETTERS.isdisjoint(text):
        return text
    return "".join(letter if letter.isprintable() and letter not in BLANK_LETTERS else f"\\u{{{ord(letter):x}}}" for letter in text)


def begin_of(text: str) -> str:
    """A text of a stranger, or its beginning, where it is long."""
    return text if len(text) <= MOST_LETTERS else f"{text[:MOST_LETTERS]}.."


def cut(text: str) -> str:
    """A text of a stranger that is read in a line among others: its beginning, where it is long, with the number of blanks where there are many."""
    return BLANKS.sub(lambda blanks: f"\\u{{20*{len(blanks[0])}}}", begin_of(text))


def plural(count: int, word: str, many: str = "") -> str:
    return f"{count} {word}" if count == 1 else f"{count} {many or word + 's'}"


def say(line: str) -> None:
    """Writes a line to standard error. Where that is closed or full there is nobody to tell."""
    try:
        print(printable(line), file=sys.stderr, flush=True)
    except OSError:
        pass


def fail(name: str, why: str) -> None:
    say(f"{name}: {why}")


class Words(argparse.ArgumentParser):
    """A reader of the command line, which refuses in one line as all else does."""

    def print_help(self, file: Optional[Any] = None) -> None:
        # argparse hides where this can't be written
        sys.stdout.write(self.format_help())
        sys.stdout.flush()

    def error(self, message: str) -> NoReturn:
        raise Refused(f"{message} ({self.prog} --help says how to call it)")


def parser(name: str, usage: str, text: str) -> Words:
    """A reader of the words of a command, which shows its text for --help."""
    return Words(prog=name, usage=usage, description=text, formatter_class=argparse.RawDescriptionHelpFormatter, allow_abbrev=False)


def add_order(words: argparse.ArgumentParser) -> None:
    words.add_argument("--order", choices=ORDERS, default="columns", help="the order in which levels list their cells (columns)")


def add_game(words: argparse.ArgumentParser) -> None:
    words.add_argument("--game", metavar="GAME.txt", help="the text of recordings whose source is the empty text")


def add_ticks(words: argparse.ArgumentParser) -> None:
    words.add_argument("--ticks-as-recorded", action="store_true", help="play games without their realtime_interval: recordings hold their ticks")


def workers_in(word: str) -> int:
    """A number of workers, as the program takes it."""
    if not (word.isascii() and word.isdigit() and 1 <= int(word[-9:]) <= MOST_WORKERS and len(word) < 9):
        raise argparse.ArgumentTypeError(f"must be a number from 1 to {MOST_WORKERS}")
    return int(word)


def seconds_in(word: str) -> float:
    """A limit of time."""
    try:
        seconds = float(word)
    except ValueError:
        seconds = 0
    if not 0 < seconds <= MOST_SECONDS:
        raise argparse.ArgumentTypeError(f"must be a number of seconds up to {MOST_SECONDS}")
    return seconds


def add_playing(words: argparse.ArgumentParser) -> None:
    """The words of verbs that play: in which order, by how many workers, with which program, and how long a session at most."""
    add_order(words)
    words.add_argument("--workers", metavar="N", type=workers_in, help="the number of threads that play (2)")
    words.add_argument("--program", metavar="PROGRAM", help="play with this program (./replay, or what SAXTEGUN_PROGRAM names)")
    words.add_argument("--timeout", metavar="SECONDS", type=seconds_in, help="stop a session that isn't answered in so many seconds (none is stopped); to find it may take as long again, or a few times as long")


def silence(stream: TextIO, descriptor: int) -> None:
    """Puts nothing in the place of a stream that can't be written any more, not even at the end."""
    try:
        os.dup2(os.open(os.devnull, os.O_WRONLY), descriptor)
        stream.flush()
    except (OSError, ValueError):
        pass


def failure_told(why: OSError) -> str:
    """What failed, of which nobody else has said more."""
    if why.filename:
        return f"{why.filename} can't be read or written: {why.strerror}"
    if str(why.strerror).startswith("No usable temporary"):
        return "no folder for temporary files can be written; TMPDIR may name one"
    return "the working folder isn't there any more" if isinstance(why, FileNotFoundError) else f"writing failed: {why.strerror}"


class Ended(BaseException):
    """This process is to end, by this signal: whatever runs is left by the way of its `finally`."""

    def __init__(self, number: int) -> None:
        super().__init__()
        self.number = number


def end_by(number: int, frame: Any) -> NoReturn:
    # while this tidies up nothing ends it again
    for it in (*ENDING, signal.SIGINT):
        signal.signal(it, signal.SIG_IGN)
    raise Ended(number)


def listen_for_ends() -> None:
    """Lets what ends this process end what it has started, and take its folders away; but what it was told to ignore stays ignored."""
    if signal.getsignal(signal.SIGINT) == signal.SIG_DFL:
        # as it stood while the package was read
        signal.signal(signal.SIGINT, signal.default_int_handler)
    for it in ENDING:
        if signal.getsignal(it) == signal.SIG_DFL:
            signal.signal(it, end_by)


def forget_ends() -> None:
    """Nothing is left to be tidied up: what ends this process ends it now without a word."""
    for number in (*ENDING, signal.SIGINT):
        if signal.getsignal(number) in (end_by, signal.default_int_handler):
            signal.signal(number, signal.SIG_DFL)


def buffered(stream: Any) -> Any:
    """A stream that fails where its file takes only a part of what is written. Python opens none such where it is told to hold nothing back
    (PYTHONUNBUFFERED, `python3 -u`): the rest would be lost without a word."""
    if not isinstance(stream.buffer, io.RawIOBase):
        return stream
    return io.TextIOWrapper(io.BufferedWriter(stream.detach()), line_buffering=True)


def open_streams(name: str, is_data: bool) -> None:
    """Makes the streams what they are to be: of UTF-8, and logs, but for one that takes data."""
    for which in ("stdout", "stderr"):
        stream = getattr(sys, which)
        if hasattr(stream, "reconfigure"):
            stream = buffered(stream)
            setattr(sys, which, stream)
            stream.reconfigure(encoding="utf-8", newline="\n", errors="backslashreplace")
            if is_log(stream) and not (is_data and which == "stdout"):
                setattr(sys, which, Log(stream))
    if hasattr(sys.stdin, "reconfigure"):
        # what is typed may be anything
        sys.stdin.reconfigure(encoding="utf-8", errors="replace")
    if sys.stderr is None:
        # the lowest number that is free is that of what is closed
        sys.stderr = open(os.devnull, "w", encoding="utf-8")
    if sys.stdout is None:
        fail(name, "standard output is closed")
        sys.exit(2)


def serve(name: str, main: Callable[[], int], is_data: bool = False) -> NoReturn:
    """Runs a tool and ends with its status: 2, and a line on standard error, where it refuses or can't write; where a signal ends it, by that. `is_data`:
    what it writes to standard output is no text for people."""
    open_streams(name, is_data)
    number = 0
    try:
        listen_for_ends()
        status = status_of(name, main)
        forget_ends()
    except Ended as by:
        number = by.number
    except KeyboardInterrupt:
        # behind the answer, or before there was any
        forget_ends()
        status = 2
    if number:
        # what waits in the midst of reading takes its folder away, and then this ends as it was told to
        gc.collect()
        silence(sys.stdout, 1)
        signal.signal(number, signal.SIG_DFL)
        os.kill(os.getpid(), number)
    sys.exit(status)


def status_of(name: str, main: Callable[[], int]) -> int:
    """The status with which a tool ends, which has said why where that is 2."""
    status = 2
    try:
        status = main()
        sys.stdout.flush()
    except Refused as why:
        fail(name, str(why))
        status = 2
    except BrokenPipeError:
        # whoever read the output has seen enough
        status = 2
        silence(sys.stdout, 1)
    except OSError as why:
        fail(name, failure_told(why))
        status = 2
        silence(sys.stdout, 1)
    except MemoryError:
        fail(name, "there is not enough memory")
        status = 2
    except KeyboardInterrupt:
        # whoever reads the output may keep this waiting for ever
        status = 2
        silence(sys.stdout, 1)
    except Exception:
        # a fault of this command's own is no answer, and may hold a text of a stranger
        for line in traceback.format_exc().splitlines():
            say(line)
        fail(name, "this is a fault of saxtegun's own, and no answer: please report it with the lines above")
    except SystemExit as end:
        # --help, whose text may meet a closed pipe or a full device as any other
        status = end.code if isinstance(end.code, int) else 0
    return flushed(status)


def flushed(status: int) -> int:
    """The status, or 2 where what was written before a refusal can't be written out."""
    try:
        sys.stdout.flush()
    except OSError:
        status = 2
        silence(sys.stdout, 1)
    return status
