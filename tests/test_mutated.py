"""Files that were cut or changed in some letters: each verb answers with a status, or with one sentence, and never with a traceback."""
from __future__ import annotations

import contextlib
import io
import json
import os
import random
import shutil
import tempfile
import unittest
from typing import Any
from unittest import mock

from day import EXAMPLE, OnSessions
import tool  # puts the package on the path
from saxtegun import command_line
from saxtegun.commands import Refused

FILES = 1000
# So many of the files are read by verbs that start a program, which takes some time.
PLAYED = 150
# The stages of an input at which a crate of the example would be pushed to the right, and of one more tick; by no means what it shows.
STAGES = b"".join(
    b'{%b"changed":true,"commands":%b,"headings":[[3,3,"player","right"]],"input":3,"level":"background crate:0,background player:1,\\n",%b"stage":"%b","tick":%d}\n' % it
    for it in (
        (b"", b"[]", b"", b"input", 0), (b'"block":0,', b'["again"]', b'"lines":[78],', b"early", 0), (b"", b"[]", b"", b"movement", 0), (b'"block":1,', b"[]", b'"lines":[1,78,900],', b"late", 0),
        (b"", b'["again"]', b"", b"end", 0), (b"", b"[]", b"", b"input", 1), (b"", b'["cancel"]', b"", b"end", 1),
    )
) + b'{"input":3,"stop":"loop-limit","tick":2}\n'  # fmt: skip
LETTERS = '[]{}",:0123456789\\ue\n\x00\ufeff\u2028'


def mutated(data: bytes, chance: random.Random) -> bytes:
    """The bytes with a few changed, or cut."""
    data = bytearray(data)
    for _ in range(chance.choice((1, 1, 2, 5, 30))):
        at = chance.randrange(len(data)) if data else 0
        kind = chance.randrange(4)
        if kind == 0:
            data[at : at + chance.randrange(1, 9)] = b""
        elif kind == 1:
            data[at:at] = chance.choice(LETTERS).encode()
        elif kind == 2:
            data[at : at + 1] = bytes([chance.randrange(256)])
        else:
            del data[max(at, 20) : None if chance.randrange(8) == 0 else max(at, 20) + 1]
    return bytes(data)


class Mutated(OnSessions):
    def setUp(self) -> None:
        super().setUp()
        entries = json.loads(EXAMPLE.read_text(encoding="utf-8"))[3:]
        lines = self.lines.read_bytes().splitlines()
        # the last two sessions of the example, numbered from 0
        of = {number: b"".join(it + b"\n" for it in lines if it.endswith(b'"session":%d}' % number)) for number in (3, 4)}
        run = b"".join(it.replace(b'"session":%d}' % number, b'"session":%d}' % (number - 3)) for number, it in of.items())
        self.good = {
            "s.json": json.dumps(entries).encode(),
            "l": run,
            "game.txt": entries[0][1][0].encode(),
            "bare.json": json.dumps([[name, ["", *rest]] for name, [_, *rest] in entries]).encode(),
            "console.txt": b"".join(json.dumps(it).encode() + b",\n" for it in entries),
            "parts/00000000.json": json.dumps(entries[:1]).encode(),
            "parts/00000001.json": json.dumps(entries[1:2]).encode(),
            "parts/00000000.lines": of[3].replace(b'"session":3}', b'"session":0}'),
            "parts/00000001.lines": of[4].replace(b'"session":4}', b'"session":0}'),
            "shown": run,
            "stages": STAGES,
        }
        (self.room / "parts").mkdir()
        for name, data in self.good.items():
            (self.room / name).write_bytes(data)
        # a program that shows the same whatever it is given
        self.program = self.write("program", f"#!/bin/sh\ncat {self.room}/shown\nexit 1\n")
        self.program.chmod(0o755)
        self.tell_stages(STAGES)

    def answer(self, *words: object) -> int:
        """The status of a verb, called within this process; a refusal is 2, and anything else that it raises fails the test."""
        output = tempfile.TemporaryFile("w", encoding="utf-8")
        with output, mock.patch("sys.argv", ["saxtegun", *words]), contextlib.redirect_stdout(output), contextlib.redirect_stderr(io.StringIO()):
            try:
                return command_line.main()
            except Refused:
                return 2

    def read_mutated(self, uses: Any, files: Any, chance: random.Random) -> int:
        """Verbs on mutated files: `uses` maps a file to the words of verbs that read it. Answers how many were refused."""
        refused = 0
        before = os.getcwd()
        os.chdir(self.room)
        try:
            for _ in range(files):
                name = chance.choice(sorted(uses))
                (self.room / name).write_bytes(mutated(self.good[name], chance))
                words = chance.choice(uses[name]).split()
                with self.subTest(name=name, words=words):
                    status = self.answer(*words)
                    self.assertIn(status, (0, 1, 2))
                    refused += status == 2
                (self.room / name).write_bytes(self.good[name])
                for made in ("new", "more.json"):
                    shutil.rmtree(made, ignore_errors=True)
        finally:
            os.chdir(before)
        return refused

    def test_no_mutated_file_gives_a_traceback(self) -> None:
        of_both = ["explain s.json l", "report s.json l", "junit s.json l", "accept s.json l", "accept s.json l --only half*"]
        uses = {
            "s.json": [*of_both, "testdata s.json", "split s.json 2 new", "source game.txt s.json --all", "compare l l s.json"],
            "l": [*of_both, "junit l", "compare l shown", "compare shown l s.json --report page"],
            "game.txt": ["source game.txt s.json"],
            "console.txt": ["testdata console.txt"],
            "parts/00000001.json": ["join parts"],
            "parts/00000000.lines": ["join parts"],
            "parts/00000001.lines": ["join parts"],
        }
        self.assertGreater(self.read_mutated(uses, FILES - PLAYED, random.Random(7)), 300)

    def test_no_mutated_file_that_is_played_gives_a_traceback(self) -> None:
        program = "--program program"
        of_lines = [f"test s.json {program} --report page --junit xml --markdown md --github", f"lines s.json {program}", f"add s.json console.txt {program}", f"coverage s.json {program}"]
        uses = {
            "s.json": of_lines,
            "shown": [*of_lines, "shrink program program s.json half* new", "compare --engines program program s.json"],
            "game.txt": [f"test game.txt bare.json {program}", f"coverage game.txt bare.json {program}"],
            "bare.json": [f"test game.txt bare.json {program}"],
            "console.txt": [f"add more.json console.txt {program} --anyway"],
            "stages": ["why s.json --session there* --input 2", "why game.txt bare.json --session there* --input 2 --json", f"why s.json --session there* --old game.txt {program}"],
        }
        self.assertGreater(self.read_mutated(uses, PLAYED, random.Random(8)), 20)


if __name__ == "__main__":
    unittest.main()
