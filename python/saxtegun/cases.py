"""Cases of conformance/: how one is read from its file, and written. conformance/README.md says what stands in it."""
from __future__ import annotations

import json
from pathlib import Path
from typing import Any, Callable, Dict, List, NamedTuple


def compact(value: Any) -> str:
    return json.dumps(value, ensure_ascii=False, separators=(",", ":"))


# How the text of a sessions file is laid out, of which nothing depends but its bytes.
LAYOUTS: Dict[str, Callable[[List[Any]], str]] = {
    "compact": compact,
    "spaces": lambda entries: json.dumps(entries, ensure_ascii=False),
    "lines": lambda entries: "[" + ",\n".join(map(compact, entries)) + "]\n",
}


class Case(NamedTuple):
    """A case: the words of its command line, standard input, the files beside it by their paths, and the answer that is wanted."""

    name: str
    rules: List[str]
    words: List[str]
    input: bytes
    room: Dict[str, bytes]
    stdout: bytes
    stderr: bytes
    status: int


def bytes_of(file: Dict[str, Any]) -> bytes:
    """A sessions file: its text, or that of its sessions, filled up with spaces to its length."""
    text: str = file["text"] if "text" in file else LAYOUTS[file.get("layout", "compact")](file["sessions"])
    return text.encode().ljust(file.get("length", 0))


def file_of(text: str) -> Dict[str, Any]:
    """What a case says of a sessions file: its sessions, where a layout gives its text again, or else that text."""
    entries = json.loads(text)
    layout = next((name for name, laid_out in LAYOUTS.items() if laid_out(entries) == text), None)
    if layout is None:
        return {"text": text}
    return {"sessions": entries} if layout == "compact" else {"layout": layout, "sessions": entries}


def lines_of(case: Dict[str, Any]) -> str:
    return "".join(f"{compact(it)}\n" for it in case.get("lines", []))


def case_of(name: str, value: Dict[str, Any]) -> Case:
    room = {path: bytes_of(it) for path, it in value.get("room", {}).items()}
    message = f"{value['message']}\n" if "message" in value else ""
    answer = (lines_of(value).encode(), message.encode(), value["status"])
    return Case(name, value.get("rules", []), value["words"], bytes_of(value), room, *answer)


def read_case(path: Path) -> Case:
    return case_of(path.stem, json.loads(path.read_text(encoding="utf-8")))


def plain_cases(folder: Path) -> List[Case]:
    """The cases of a folder by their names, but those that have files beside them, and those whose file is as long as one may be."""
    values = ((it.stem, json.loads(it.read_text(encoding="utf-8"))) for it in sorted(folder.glob("*.json")))
    return [case_of(name, value) for name, value in values if not value.keys() & {"room", "length"}]


def visible(text: str) -> str:
    """JSON in which what can't be seen is escaped."""
    return "".join(it if it.isprintable() else json.dumps(it)[1:-1] for it in text)


def written_case(value: Dict[str, Any]) -> str:
    """The text of a case: each session and each line that is wanted has a line of its own."""
    parts = []
    for key, it in value.items():
        text = json.dumps(it, ensure_ascii=False)
        if key in ("sessions", "lines") and any(isinstance(each, (list, dict)) for each in it):
            text = "[\n" + ",\n".join(f"    {compact(each)}" for each in it) + "\n  ]"
        parts.append(f'  "{key}": {text}')
    return "\n".join(map(visible, ("{\n" + ",\n".join(parts) + "\n}\n").split("\n")))
