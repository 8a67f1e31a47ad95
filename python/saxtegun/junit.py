"""A run as a JUnit file, for CI systems that show one."""
from __future__ import annotations

import re
from typing import Dict, Iterable, Mapping, Optional, Sequence, Set, Tuple
from xml.etree import ElementTree

from saxtegun.explanations import told
from saxtegun.failures import Failure
from saxtegun.lines import UNANSWERED, Run
from saxtegun.sessions import Entry, Sessions
from saxtegun.solvability import UNSOLVABLE

# What XML 1.0 has no way to write.
UNWRITTEN = re.compile("[^\t\n\r\x20-\ud7ff\ue000-\ufffd\U00010000-\U0010ffff]")


def writable(text: str) -> str:
    """A text with what XML can't hold written by its number."""
    return UNWRITTEN.sub(lambda letter: f"\\u{{{ord(letter[0]):x}}}", text)


def told_apart(run: Run, names: Set[str]) -> str:
    """The name of a case, which none of these has: one that is there already is told from the first by its number."""
    name = writable(run.name)
    while name in names:
        name += f" (session {run.number})"
    return name


def case_of(run: Run, name: str, entry: Optional[Entry], order: str, refused: str, failure: Optional[str]) -> Tuple[ElementTree.Element, Optional[str]]:
    """The test case of a session, and what it counts as. `failure` is why one that passed counts as failed."""
    sentence, below = told(run, entry, order)
    counted = {"passed": None, "refused": refused, UNANSWERED: "error"}.get(run.close, "failure")
    kind = run.close
    if failure and counted is None:
        sentence, counted, kind = failure, "failure", "unsolved"
    case = ElementTree.Element("testcase", {"classname": "sessions", "name": name})
    if counted:
        words = {"message": writable(sentence)}
        if counted != "skipped":
            words["type"] = kind
        ElementTree.SubElement(case, counted, words).text = writable("\n".join([sentence, *below]))
    return case, counted


def junit_of(runs: Iterable[Run], name: str, sessions: Optional[Sessions], order: str, refused: str = "error", failures: Optional[Dict[int, str]] = None, levels: Sequence[Failure] = (), properties: Mapping[str, str] = {}) -> str:
    """The JUnit file of runs, and of levels that can't be won or of which it isn't known; `properties` say what else is to be known of the run."""
    suite, counts = ElementTree.Element("testsuite"), {"failure": 0, "error": 0, "skipped": 0}
    names: Set[str] = set()
    for run in runs:
        label = told_apart(run, names)
        names.add(label)
        entry = sessions.entries[run.number] if sessions else None
        case, counted = case_of(run, label, entry, order, refused, (failures or {}).get(run.number))
        suite.append(case)
        if counted:
            counts[counted] += 1
    for it in levels:
        counted = "failure" if it.close == UNSOLVABLE else "error"
        case = ElementTree.SubElement(suite, "testcase", {"classname": "levels", "name": writable(it.name)})
        ElementTree.SubElement(case, counted, {"message": writable(it.sentence), "type": it.close}).text = writable(it.sentence)
        counts[counted] += 1
    if properties:
        told_first = ElementTree.Element("properties")
        for named, value in properties.items():
            ElementTree.SubElement(told_first, "property", {"name": named, "value": value})
        suite.insert(0, told_first)
    numbers = {"tests": len(suite.findall("testcase")), "failures": counts["failure"], "errors": counts["error"], "skipped": counts["skipped"]}
    suite.attrib.update({"name": writable(name), **{key: str(value) for key, value in numbers.items()}})
    suites = ElementTree.Element("testsuites")
    suites.append(suite)
    return '<?xml version="1.0" encoding="utf-8"?>\n' + ElementTree.tostring(suites, encoding="unicode") + "\n"
