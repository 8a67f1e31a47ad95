"""Runs a program in bounds that are told: of time, of what it writes, and of what it says. It ends with this process, however that ends, and with it
all that it has started."""
from __future__ import annotations

import os
import re
import shutil
import signal
import subprocess
import tempfile
from collections import deque
from contextlib import contextmanager
from threading import Event, Thread, current_thread, main_thread
from time import monotonic
from typing import IO, Any, Callable, Deque, Dict, Generic, Iterator, List, Mapping, NamedTuple, Optional, Sequence, TypeVar

from saxtegun.commands import Refused, plural, say
from saxtegun.programs import environment_of

GIB = 2**30
# So many bytes of lines a program may write into a file of ours, and so many it may say on standard error.
MOST_WRITTEN = 8 * GIB
MOST_SAID = 2**24
# So many bytes of a line that it says are told, and so long is waited between two looks at what it does.
MOST_OF_LINE = 1000
PAUSE = 0.05
# So many lines that it says wait to be handed on.
MOST_HELD = 1000
# So long a program that is to end may tidy up, and so often it is looked whether something is still read of what it said.
PATIENCE = 0.5
MOST_LOOKS = 20
UNANSWERED_BEGIN = "not answered in"
# What ends this process, or its terminal, and is heard behind what must not be left halfway.
HELD = tuple(getattr(signal, it) for it in ("SIGINT", "SIGTERM", "SIGHUP") if hasattr(signal, it))


class Unanswered(Refused):
    """A program had no answer in the time that it had."""


class Ran(NamedTuple):
    """How a program ended, and the last line that it said on standard error."""

    status: int
    said: str


def tell_to_end(ran: "subprocess.Popen[bytes]", name: str) -> None:
    """Sends a signal to a program, and to all that it has started."""
    try:
        os.killpg(ran.pid, getattr(signal, name))
    except (AttributeError, OSError):
        ran.kill()


def end(ran: "subprocess.Popen[bytes]") -> None:
    """Ends a program, with all that it has started: it may tidy up, but not for long, and not where whoever waits is impatient."""
    try:
        tell_to_end(ran, "SIGTERM")
        wait_a_while(ran, PATIENCE)
    finally:
        tell_to_end(ran, "SIGKILL")
        ran.wait()


Value = TypeVar("Value")


class Beside(Thread, Generic[Value]):
    """Does something beside. Where this process is to end nobody waits for it, but what it has started is ended."""

    def __init__(self, act: Callable[[], Value]) -> None:
        super().__init__(daemon=True)
        self.act = act
        self.values: List[Value] = []
        self.why: Optional[BaseException] = None
        self.ran: "Optional[subprocess.Popen[bytes]]" = None
        self.is_left = False
        # a thread whose join a signal has broken off counts as ended, in some versions of Python, though it goes on
        self.done = Event()
        self.start()

    def run(self) -> None:
        try:
            self.values.append(self.act())
        except BaseException as why:
            self.why = why
        finally:
            self.done.set()

    def wait(self) -> None:
        """Waits until it is done. A signal that comes just before this waits is heard only once it is awake again."""
        while not self.done.wait(PAUSE):
            pass
        # as Python ends no thread of it is to be in the midst of ending
        self.join(PAUSE)

    def result(self) -> Value:
        """What came of it, once it is done."""
        self.wait()
        if self.why is not None:
            raise self.why
        return self.values[0]

    def leave(self) -> None:
        """Ends the program that it has started, and so itself, since it starts no other and reads no more. What comes meanwhile waits: it would leave a folder
        behind."""
        self.is_left = True
        with held():
            while not self.done.is_set():
                ran = self.ran
                if ran is not None and ran.poll() is None:
                    end(ran)
                self.done.wait(PAUSE)


@contextmanager
def held() -> Iterator[None]:
    """Lets what ends this process wait until this is done: it would leave behind a program that nobody knows of yet, or half of a folder."""
    came: List[int] = []
    before: Dict[int, Any] = {}
    try:
        for it in HELD if current_thread() is main_thread() else ():
            handler = signal.getsignal(it)
            if callable(handler):
                before[it] = handler
                signal.signal(it, lambda number, frame: came.append(number))
        yield
    finally:
        for it, handler in before.items():
            signal.signal(it, handler)
        for it in came:
            # by this thread, and so at once: a moment later it could leave a lock locked that another thread waits for
            signal.raise_signal(it)


@contextmanager
def room_for_now() -> Iterator[str]:
    """A folder for as long as this lasts, which is made whole and taken away whole, whatever comes meanwhile."""
    made: Optional[str] = None
    try:
        with held():
            made = tempfile.mkdtemp(prefix="saxtegun-")
        assert made is not None
        yield made
    finally:
        if made is not None:
            with held():
                shutil.rmtree(made, ignore_errors=True)


def check_wanted() -> None:
    """Ends what is done beside where nobody waits for it any more."""
    beside = current_thread()
    if isinstance(beside, Beside) and beside.is_left:
        raise Refused("nobody waits for this any more")


def begun(words: Sequence[str], **options: Any) -> "subprocess.Popen[bytes]":
    """A program, noted by whoever runs it beside."""
    check_wanted()
    beside = current_thread()
    try:
        ran = subprocess.Popen(words, start_new_session=True, **options)
    except OSError as why:
        raise Refused(f"{words[0]} can't be run: {why.strerror}") from None
    if isinstance(beside, Beside):
        beside.ran = ran
    return ran


@contextmanager
def started(words: Sequence[str], stdin: Any, output: Any, environment: Optional[Mapping[str, str]] = None, folder: Optional[str] = None) -> "Iterator[subprocess.Popen[bytes]]":
    """A program in a group of its own, as long as this lasts, and in a folder if one is named."""
    ran: "Optional[subprocess.Popen[bytes]]" = None
    try:
        with held():
            ran = begun(words, stdin=stdin, stdout=output, stderr=subprocess.PIPE, env=environment_of(words) if environment is None else environment, cwd=folder)
        assert ran is not None
        yield ran
    finally:
        if ran is not None and ran.poll() is None:
            end(ran)
        elif ran is not None:
            # what it has started, and left behind, ends with it
            tell_to_end(ran, "SIGKILL")


class Said(Thread):
    """Reads what a program says, and keeps what stands before its last line, as ./replay says while it builds, for whoever waits for the program to hand it
    on. It writes nothing itself: where this process ends while it writes, it would hold our stream, and Python, which can't end without that, aborts."""

    def __init__(self, stream: IO[bytes]) -> None:
        super().__init__(daemon=True)
        self.stream, self.last, self.count = stream, "", 0
        self.before: Deque[str] = deque()
        self.skipped, self.told = 0, 0
        self.start()

    def run(self) -> None:
        is_begin = True
        with self.stream:
            for piece in iter(lambda: self.stream.readline(MOST_OF_LINE), b""):
                self.count += len(piece)
                if is_begin:
                    self.take(piece.decode("utf-8", "replace").rstrip("\n"))
                is_begin = piece.endswith(b"\n")

    def take(self, line: str) -> None:
        if self.last and self.count <= MOST_SAID:
            if len(self.before) < MOST_HELD:
                self.before.append(self.last)
            else:
                self.skipped += 1
        self.last = line

    def wait(self) -> None:
        """Waits while something is read: soon all that an ended program has left, however slow this machine is. What has left its group may say more for ever."""
        for _ in range(MOST_LOOKS):
            count = self.count
            self.join(PATIENCE)
            if self.count == count:
                return

    def hand_on(self) -> None:
        """Says what has come since: the first lines of it, and how many more, so that whoever says it still looks at the time."""
        for _ in range(len(self.before)):
            say(self.before.popleft())
        skipped = self.skipped
        if skipped > self.told:
            say(f"and {plural(skipped - self.told, 'line')} more")
            self.told = skipped


def written_to(output: Any) -> Callable[[], int]:
    """How many bytes more a file has since now; none where it is a pipe or a device, whose reader decides how much it takes."""
    try:
        number = output.fileno()
    except OSError as why:
        raise Refused(f"what is played can't be written: {why}") from None
    begin = os.fstat(number).st_size
    return lambda: os.fstat(number).st_size - begin


def check_bounds(name: str, written: int, said: int) -> None:
    if written > MOST_WRITTEN:
        raise Refused(f"{name} was stopped: it wrote more than {MOST_WRITTEN // GIB} GiB of lines; play fewer sessions at once (saxtegun split)")
    if said > MOST_SAID:
        raise Refused(f"{name} was stopped: it said more than {MOST_SAID // 2**20} MiB on standard error")


def time_left(begin: float, seconds: Optional[float]) -> float:
    """How long is waited until the next look. Refused where there is no time left."""
    left = PAUSE if seconds is None else begin + seconds - monotonic()
    if left <= 0 and seconds is not None:
        raise Unanswered(f"{UNANSWERED_BEGIN} {seconds:g} s")
    return min(left, PAUSE)


def check_library(said: str) -> None:
    """Refuses where a program isn't even begun, since the C library of this machine is too old for it."""
    missing = re.search(r"version `(GLIBC_[0-9.]+)' not found", said)
    if missing is not None:
        raise Refused(f"the program needs a newer C library than this machine has ({missing[1]}): play in Node, as docs/engine.md tells")


def watched(words: Sequence[str], output: Any, stdin: Any = None, seconds: Optional[float] = None, folder: Optional[str] = None) -> Ran:
    """Runs a program to its end, or so many seconds."""
    begin, written = monotonic(), written_to(output)
    with started(words, stdin, output, folder=folder) as ran:
        assert ran.stderr is not None
        said = Said(ran.stderr)
        try:
            while ran.poll() is None:
                said.hand_on()
                check_bounds(words[0], written(), said.count)
                said.join(time_left(begin, seconds))
                if not said.is_alive():
                    wait_a_while(ran, time_left(begin, seconds))
            said.join(PAUSE)
            if said.is_alive():
                # what it has started, and left behind, still holds its stream
                end(ran)
                said.wait()
        finally:
            said.hand_on()
    last = said.last
    check_library(last)
    if ran.returncode in (0, 1) and last:
        say(last)
    return Ran(ran.returncode, last)


def wait_a_while(ran: "subprocess.Popen[bytes]", seconds: float) -> None:
    try:
        ran.wait(seconds)
    except subprocess.TimeoutExpired:
        pass
