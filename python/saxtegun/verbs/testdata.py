"""Turns the published test data of the reference engine, or any text with
recordings in it, into a sessions file.

Test data is JavaScript: `var testdata = [ .. ];`, a list of entries [name,
[source, inputs, level, index, seed]]. An editor's console prints such entries,
or only what stands within. Entries are written again as JSON, one a line;
nothing in them is changed or left out. One without a name gets its game's title
and level.

What a compiler printed is skipped, and so is a recording that is cut off or has
a fault; standard error says where.

Exit status: 0; 1 if a recording was cut off or had a fault, 2 if there is none."""
from __future__ import annotations

import sys
from argparse import ArgumentParser, Namespace

from saxtegun.commands import say
from saxtegun.files import guard_output
from saxtegun.recordings import as_sessions, is_broken, own_name, read_findings

USAGE = "testdata testdata.js|- >sessions.json"


def add_words(words: ArgumentParser) -> None:
    words.add_argument("file", metavar="testdata.js")


def main(given: Namespace) -> int:
    guard_output(given.file)
    findings = read_findings("testdata", given.file)
    sessions = as_sessions(given.file, findings.found, lambda name, entry: name or own_name(name, entry))
    sys.stdout.write(sessions.text)
    sys.stdout.flush()
    count = len(sessions.entries)
    say(f"testdata: {count} {'entry' if count == 1 else 'entries'}")
    return 1 if is_broken(findings) else 0
