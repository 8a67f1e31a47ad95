"""A page of web/ as one file: its modules joined to one script, its styles to one, and a policy that lets nothing else run.

Modules are joined in one scope, those that a module imports before it. An import names what it takes on one line, without another name for it;
what is exported is a declaration. So the names of a page's modules must differ, which Node's own reading of the joined script tests."""
from __future__ import annotations

import base64
import hashlib
import re
from pathlib import Path
from typing import Dict, List

WEB = Path(__file__).resolve().parents[2] / "web"
IMPORT = re.compile(r'^import \{[^}]*\} from "\./([a-z-]+\.mjs)";\n', re.M)
# What tells a checker types, on lines of its own or before brackets: nothing of it goes into a page.
TYPES = re.compile(r"^// @ts-check\n|^ */\*\* @[a-z]+ [^*\n]*\*/\n|/\*\* @type [^*\n]*\*/ (?=\()", re.M)
EXPORT = re.compile(r"^export (?=(?:async )?(?:const|let|function|class)\b)", re.M)


def part(name: str) -> str:
    """A file of web/."""
    return (WEB / name).read_text(encoding="utf-8")


def without_types(text: str) -> str:
    """The text of a module as it goes into a page."""
    return TYPES.sub("", text)


def modules_of(name: str) -> List[str]:
    """A module behind those that it imports, each once."""
    found: Dict[str, None] = {}

    def visit(module: str) -> None:
        if module not in found:
            for other in IMPORT.findall(part(module)):
                visit(other)
            found[module] = None

    visit(name)
    return list(found)


def script_of(name: str) -> str:
    """A module and all that it imports as one script."""
    pieces = [EXPORT.sub("", IMPORT.sub("", without_types(part(it)))).strip("\n") for it in modules_of(name)]
    return "\n".join(['"use strict";', "(() => {", *pieces, "})();"]) + "\n"


def style_of(*names: str) -> str:
    return "".join(map(part, names))


def digest(text: str) -> str:
    """A text as a content policy names it."""
    return "sha256-" + base64.b64encode(hashlib.sha256(text.encode()).digest()).decode()


def page_of(template: str, parts: Dict[str, str], script: str, style: str, more: str = "") -> str:
    """A template of web/ with its parts (`@name@`). `more` is what its policy allows beside its script and its style."""
    policy = f"default-src 'none'; script-src '{digest(script)}'{more}; style-src '{digest(style)}'; base-uri 'none'; form-action 'none'"
    whole = {**parts, "policy": policy, "script": script, "style": style}
    return re.sub(f"@({'|'.join(map(re.escape, whole))})@", lambda mark: whole[mark[1]], part(template))
