"""Runs of programs on sessions files, and what each took, for bench/workers and bench/compare."""
from __future__ import annotations

import ctypes
import hashlib
import os
import resource
import shutil
import signal
import subprocess
import tempfile
import time
from contextlib import suppress
from typing import IO, Iterator, Mapping, Sequence, Tuple, TypeVar

# A process counts the memory of the one that started it as its own, and this one is larger than many a program. So a small shell starts the
# program and leaves it to us; it begins at a line of ours, when the shell has gone and the clock runs.
START = 'exec 3<&0; { read -r go <&3 && exec "$@" >"$0" </dev/null 3<&-; } & echo $!'
PR_SET_CHILD_SUBREAPER = 36
Name = TypeVar("Name")
if ctypes.CDLL(None).prctl(PR_SET_CHILD_SUBREAPER, 1, 0, 0, 0) != 0:
    raise OSError("this system doesn't leave a program to the process above the one that started it")


class Run:
    """One run of a command: its times in seconds, its memory in MiB, its exit status, and a digest of its output."""

    def __init__(self, command: Sequence[str]) -> None:
        with tempfile.NamedTemporaryFile() as output:
            self.seconds, status, usage = watched(command, output.name)
            self.digest = digest_of(output)
        self.processor = usage.ru_utime + usage.ru_stime
        self.memory = usage.ru_maxrss / 1024
        # below 0: the signal that ended it
        self.status = os.WEXITSTATUS(status) if os.WIFEXITED(status) else -os.WTERMSIG(status)


def watched(command: Sequence[str], output: str) -> Tuple[float, int, resource.struct_rusage]:
    """Runs a command with its output into a file: the wall time, the status, and what the system says of it. It ends with this, and with it all that it has
    started, and left behind."""
    if shutil.which(command[0]) is None:
        raise FileNotFoundError(f"there is no program {command[0]!r}")
    with subprocess.Popen(["sh", "-c", START, output, *command], stdin=subprocess.PIPE, stdout=subprocess.PIPE, start_new_session=True) as shell:
        assert shell.stdin is not None and shell.stdout is not None
        try:
            program = int(shell.stdout.readline())
            shell.wait()
            start = time.monotonic()
            shell.stdin.write(b"\n")
            shell.stdin.close()
            _, status, usage = os.wait4(program, 0)
            return time.monotonic() - start, status, usage
        finally:
            with suppress(ProcessLookupError):
                os.killpg(shell.pid, signal.SIGKILL)


def digest_of(file: IO[bytes]) -> str:
    digest = hashlib.sha256()
    for piece in iter(lambda: file.read(1 << 20), b""):
        digest.update(piece)
    return digest.hexdigest()


def in_turn(commands: Mapping[Name, Sequence[str]], rounds: int) -> Iterator[Tuple[Name, Run]]:
    """Runs commands by name, so many rounds of them: they take turns, so that what else the machine does falls on all of them."""
    for _ in range(rounds):
        for name, command in commands.items():
            yield name, Run(command)
