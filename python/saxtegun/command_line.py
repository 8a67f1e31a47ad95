"""One command with many verbs: finds the verb, reads its words, and ends with its status."""
from __future__ import annotations

import importlib
import sys
from argparse import Namespace
from typing import Any, List

from saxtegun.commands import Words, fail, parser, serve
from saxtegun.programs import version_told

VERBS = {
    "test": "plays recordings, with a game's text or without, and says what did not pass and what is solved",
    "add": "adds recordings as an editor's console prints them, once they are played",
    "compare": "names the first frame at which two runs of the same sessions diverge",
    "shrink": "makes the smallest session on which two programs still diverge, as a case of conformance/",
    "coverage": "finds rules and win lines that no session needs",
    "play": "plays a game in the terminal, and saves it as a recording",
    "solve": "looks for shortest solutions of a game's levels, or shows that there is none",
    "mend": "mends recordings that no longer solve their levels",
    "lines": "plays recordings and writes the program's lines",
    "why": "shows the stages of an input: which groups and loops of rules acted, when, and the level after each",
    "explain": "says in words which sessions did not pass, and why",
    "report": "writes a page that shows each session frame by frame",
    "junit": "writes lines as a JUnit file",
    "accept": "takes what was reached as the new recorded level",
    "source": "makes an edited game the source of recordings",
    "testdata": "turns published test data, or what an editor's console prints, into a sessions file",
    "split": "splits a sessions file into parts",
    "join": "joins the lines of the parts",
}
# Stands before a word that would be taken for an option.
HIDING = "\0"
# The options that name files which are written.
OUTPUTS = ("save", "junit", "report", "markdown")
# Those whose standard output is a file for other tools.
OF_DATA = ("lines", "report", "junit", "accept", "source", "testdata", "join")


def overview() -> str:
    """What `./saxtegun --help` shows."""
    room = max(map(len, VERBS)) + 2
    rows = "".join(f"  {verb.ljust(room)}{told}\n" for verb, told in VERBS.items())
    return (
        f"usage: saxtegun VERB ..\n\n{rows}\n`saxtegun VERB --help` describes a verb, and `saxtegun --version` says what plays. "
        "Exit status: 0 all is well, 1 something differs, 2 there is no answer.\n"
    )


def hidden(words: List[str]) -> List[str]:
    """The words of a verb, in which what stands behind `--` is no option; a word that has been typed holds no such letter."""
    at = words.index("--") if "--" in words else len(words)
    return [*words[:at], *(HIDING + it if it.startswith("-") else it for it in words[at + 1 :])]


def shown(value: Any) -> Any:
    """What was read of such words as it stood there."""
    if isinstance(value, list):
        return [shown(it) for it in value]
    return value[len(HIDING) :] if isinstance(value, str) and value.startswith(HIDING) else value


def words_read(reader: Words, words: List[str]) -> Namespace:
    """The words of a verb; argparse loses `--` where options may stand anywhere. A file without a name, as of a variable that isn't set, is refused."""
    given = Namespace(**{name: shown(value) for name, value in vars(reader.parse_intermixed_args(hidden(words))).items()})
    for name in OUTPUTS:
        value = getattr(given, name, None)
        if "" in (value, value[-1] if isinstance(value, list) else value):
            reader.error(f"--{name}: the file has no name")
    return given


def main() -> int:
    words = sys.argv[1:]
    if words[:1] in (["--help"], ["-h"], ["help"]):
        sys.stdout.write(overview())
        return 0
    if words == ["--version"]:
        sys.stdout.write(version_told())
        return 0
    if not words:
        fail("saxtegun", f"a verb is missing: one of {', '.join(VERBS)}")
        return 2
    if words[0] not in VERBS:
        fail("saxtegun", f"there is no verb {words[0]!r}; the verbs are {', '.join(VERBS)}")
        return 2
    verb = importlib.import_module(f"saxtegun.verbs.{words[0]}")
    reader = parser(f"saxtegun {words[0]}", f"saxtegun {verb.USAGE}", verb.__doc__ or "")
    verb.add_words(reader)
    return int(verb.main(words_read(reader, words[1:])))


def call() -> None:
    """Runs the command, and ends with its status."""
    verb = sys.argv[1] if len(sys.argv) > 1 and sys.argv[1] in VERBS else ""
    # behind `--` stand names alone
    options = sys.argv[: sys.argv.index("--")] if "--" in sys.argv else sys.argv
    serve(f"saxtegun {verb}".strip(), main, verb in OF_DATA or (verb == "why" and "--json" in options))
