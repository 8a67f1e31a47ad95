"""What a CI reads of a log: lines in which no letters of a stranger's are a command of it. All that this command writes for people goes through here,
on both streams; what is data (lines, pages, XML) is to be written into files."""
from __future__ import annotations

import io
import os
import re
from typing import TextIO

# GitHub reads `::word` at the begin of a line, behind any white space, and `##[word` within it; Azure and TeamCity read `##vso[` and `##teamcity[`.
COLONS = re.compile("((?:^|[\r\x0b\x0c\x1c-\x1e\x85\u2028\u2029])[\\s\u200b-\u200f\u2060\ufeff]*)::")
MARK = re.compile(r"##(?=[A-Za-z]*\[)")
# What a CI sets for its jobs.
CIS = ("CI", "TF_BUILD", "GITHUB_ACTIONS")


def guarded(line: str) -> str:
    """A line of a log in which no letters are a command of a CI's."""
    return without_marks(COLONS.sub(r"\1| ::", line))


def without_marks(text: str) -> str:
    """A text in which no letters are a command wherever they stand in a line."""
    return MARK.sub(r"#\\u{23}", text)


def is_log(stream: TextIO) -> bool:
    """Whether a stream may be read by a CI: all but a terminal that no CI has made."""
    return not stream.isatty() or any(os.environ.get(it) for it in CIS)


class Log(io.TextIOWrapper):
    """A stream that a CI may read, line by line."""

    def __init__(self, stream: TextIO) -> None:
        super().__init__(stream.detach(), encoding="utf-8", newline="\n", errors="backslashreplace", line_buffering=bool(stream.line_buffering))  # type: ignore[attr-defined]
        self.held = ""

    def write(self, text: str) -> int:
        *lines, self.held = (self.held + text).split("\n")
        if lines:
            super().write("".join(f"{guarded(it)}\n" for it in lines))
        return len(text)

    def flush(self) -> None:
        held, self.held = self.held, ""
        super().write(guarded(held))
        super().flush()

    def write_command(self, line: str) -> None:
        self.flush()
        super().write(f"{line}\n")


def write_command(stream: TextIO, line: str) -> None:
    """Writes a line that is meant to be a command of a CI's."""
    if isinstance(stream, Log):
        stream.write_command(line)
    else:
        stream.write(f"{line}\n")
