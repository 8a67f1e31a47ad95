"""The rules of the language by their ids, such as `play.again-limit`, and the places where each stands."""
import json
import re
from pathlib import Path
from typing import Dict, Iterator, List, NamedTuple, Tuple

from edits import read_edits

ID = r"[a-z]+(?:-[a-z]+)*\.[a-z]+(?:-[a-z]+)*"
IDS = rf"{ID}(?:, {ID})*"
# in a page, behind the sentences of the rule
SENTENCE = re.compile(rf" ?<sub>({ID})</sub>")
# in the comment of a definition, in that of a function, in the first line of a wrong body
DEFINITION = re.compile(rf"-- ({IDS})(?:: |$)")
FUNCTION = re.compile(rf"\s*///(?: .*)? Rules? ((?:`{ID}`(?:, )?)+)\.$")
BODY = re.compile(rf" \[({IDS})\]$")
# in a page, where it leads to the sentences
LED_TO = re.compile(rf"`({ID})`")
PAGES = ("docs/language.md", "docs/sessions.md")
PLACES = ("sentence", "definition", "function", "case", "body")
WITHOUT = "dev/without.txt"


class Place(NamedTuple):
    """Where a rule stands: a file with a line, what it is called there, and its text."""

    file: str
    line: int
    name: str
    text: str


Rules = Dict[str, Dict[str, List[Place]]]


def blocks_of(lines: List[str]) -> Iterator[Tuple[str, int, List[str]]]:
    """The paragraphs and entries of a page: under which heading, at which line, and their lines."""
    heading, begun = "", 0
    held: List[str] = []
    for number, line in enumerate([*lines, ""], 1):
        if held and (not line.strip() or line.startswith("#") or re.match(r"\s*(?:-|\d+\.) ", line)):
            yield heading, begun, held
            held = []
        if line.startswith("#"):
            heading = line.lstrip("# ")
        elif line.strip():
            begun, held = begun if held else number, [*held, line.strip()]


def sentences(top: Path, page: str) -> Iterator[Tuple[str, Place]]:
    """Each id of a page, with what stands before it in its paragraph, up to the id before."""
    if not (top / page).exists():
        return
    for heading, number, lines in blocks_of((top / page).read_text(encoding="utf-8").splitlines()):
        parts = SENTENCE.split(re.sub(r"^(?:-|\d+\.) ", "", " ".join(lines)))
        for text, name in zip(parts[::2], parts[1::2]):
            at = next(place for place, line in enumerate(lines) if f"<sub>{name}</sub>" in line)
            yield name, Place(page, number + at, heading, text.strip())


def definitions(top: Path) -> Iterator[Tuple[str, Place]]:
    for file in sorted(top.glob("crates/*/specs/*.antt")):
        lines = file.read_text(encoding="utf-8").splitlines()
        for at, line in enumerate(lines):
            found = DEFINITION.match(line)
            if found:
                end = next((it for it in range(at, len(lines)) if not lines[it].strip()), len(lines))
                begun = next((it for it in range(at, end) if not lines[it].startswith("--")), at)
                name = re.match(r"(?:[a-z]+ )*?(?:pub )?(?:record |data )?([^\s:({]+)(?= *[:({])", lines[begun])
                text = "\n".join([f"-- {line[found.end():]}", *lines[at + 1 : end]]) if line[found.end() :] else "\n".join(lines[at + 1 : end])
                for it in found[1].split(", "):
                    yield it, Place(str(file.relative_to(top)), begun + 1, name[1] if name else "", text)


def functions(top: Path) -> Iterator[Tuple[str, Place]]:
    for file in sorted(top.glob("crates/*/src/**/*.rt")):
        lines = file.read_text(encoding="utf-8").splitlines()
        for at, line in enumerate(lines):
            found = FUNCTION.match(line)
            if found:
                below = next((it for it in range(at + 1, len(lines)) if not re.match(r"\s*(?:///|#\[)", lines[it])), at)
                name = re.search(r"(?:fn|const|struct|enum|trait|type) (\w+)", lines[below])
                for it in re.findall(ID, found[1]):
                    yield it, Place(str(file.relative_to(top)), below + 1, name[1] if name else "", "")


def cases(top: Path) -> Iterator[Tuple[str, Place]]:
    """Each id of a case; its name is what it shows."""
    for case in sorted(top.glob("conformance/*/*.json")):
        says = re.sub(r" (t|s)(?= |$)", r"'\1", case.stem.replace("-", " "))
        text = case.read_text(encoding="utf-8")
        for it in json.loads(text).get("rules", []):
            yield it, Place(str(case.relative_to(top)), text.count("\n", 0, text.find(f'"{it}"')) + 1, case.stem, says)


def bodies(top: Path) -> Iterator[Tuple[str, Place]]:
    for edit in read_edits(top):
        first = edit.text.partition("\n")[0]
        found = BODY.search(first)
        if found:
            for it in found[1].split(", "):
                yield it, Place(edit.file, edit.line, edit.name, first[: found.start()])


def led_to(top: Path) -> Iterator[Tuple[str, str]]:
    """Each rule to which a page leads by its id, and where."""
    for page in filter(lambda it: (top / it).exists(), PAGES):
        for number, line in enumerate((top / page).read_text(encoding="utf-8").splitlines(), 1):
            yield from ((name, f"{page}:{number}") for name in LED_TO.findall(line))


def read_rules(top: Path) -> Rules:
    """The rules in the order of the pages, each with its places; one that has no sentence comes last."""
    rules: Rules = {}
    read = [(PLACES[0], sentences(top, page)) for page in PAGES]
    for kind, found in [*read, *zip(PLACES[1:], (definitions(top), functions(top), cases(top), bodies(top)))]:
        for name, place in found:
            rules.setdefault(name, {it: [] for it in PLACES})[kind].append(place)
    return rules


def read_without(top: Path) -> List[Tuple[str, str, str]]:
    """What rules have not: a rule, or all of a kind such as `limits.*`; the place; and why."""
    file = top / WITHOUT
    lines = file.read_text(encoding="utf-8").splitlines() if file.exists() else []
    parted = (it.partition(": ") for it in lines if it and not it.startswith("#"))
    return [(said.partition(" ")[0], said.partition(" ")[2], why) for said, _, why in parted]


def is_of(name: str, said: str) -> bool:
    return name == said or (said.endswith(".*") and name.startswith(said[:-1]))


def why_not(without: List[Tuple[str, str, str]], name: str, kind: str) -> str:
    """Why a rule has no such place, or "" where that isn't said."""
    return next((why for said, place, why in without if place == kind and is_of(name, said)), "")


def faults_of(top: Path) -> Iterator[str]:
    """A line for each rule that lacks a place, or stands where it must not."""
    rules, without = read_rules(top), read_without(top)
    for name, places in rules.items():
        sentence = places["sentence"]
        if not sentence:
            yield from (f"{it.file}:{it.line}: no sentence of {' or '.join(PAGES)} has the rule {name}" for kind in PLACES for it in places[kind])
            continue
        yield from (f"{it.file}:{it.line}: the rule {name} stands there a second time" for it in sentence[1:])
        yield from (f"{sentence[0].file}:{sentence[0].line}: the rule {name} has no {kind}" for kind in PLACES if not places[kind] and not why_not(without, name, kind))
    yield from (f"{where}: no sentence of {' or '.join(PAGES)} has the rule {name}" for name, where in led_to(top) if name not in rules or not rules[name]["sentence"])
    for said, kind, why in without:
        about = [places for name, places in rules.items() if is_of(name, said)]
        if kind not in PLACES or not why or not about:
            yield f"{WITHOUT}: {said} {kind} is no rule and place with a reason"
        elif all(it[kind] for it in about):
            yield f"{WITHOUT}: {said} has a {kind}"
