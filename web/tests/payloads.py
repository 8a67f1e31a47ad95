"""Texts of somebody who wants to run a script in a page, to ask something of a network, or to break a page; and a suite that has each in five places."""
from __future__ import annotations

import json
from typing import Any, Dict, List, Optional, Tuple

HACK = "window.hacked=1"
PAYLOADS = [
    f"<script>{HACK}</script>", f"</script><script>{HACK}</script>", f"<img src=x onerror={HACK}>", f"<svg onload={HACK}>", f"<svg><script>{HACK}</script></svg>",
    f"<iframe srcdoc='<script>parent.hacked=1</script>'></iframe>", f"javascript:{HACK}", f"<a href=javascript:{HACK}>a</a>", f"<body onload={HACK}>", f"<details open ontoggle={HACK}>",
    f"<input autofocus onfocus={HACK}>", f"<video><source onerror={HACK}></video>", f"<math><mtext><style><img src=x onerror={HACK}></style>", f"<!--<script>{HACK}//-->", "<!--<script>",
    f"]]><script>{HACK}</script>", f"';{HACK};'", f"\";{HACK};\"", f"`${{{HACK}}}`", f"\\u003cscript\\u003e{HACK}\\u003c/script\\u003e", f"&lt;script&gt;{HACK}&lt;/script&gt;",
    "<link rel=stylesheet href=http://localhost:9/a.css>", "<meta http-equiv=refresh content='0;url=http://localhost:9/'>", "<base href=http://localhost:9/>", "<img src=http://localhost:9/a.png>",
    f"<form action=http://localhost:9/><button autofocus>", "@script@ @data@ @style@ @policy@", f"\u2028{HACK}\u2029", "__proto__ constructor toString", f"<style>*{{background:url(http://localhost:9/)}}</style>",
]
REFUSED = "BadRule:13"


def source_of(payload: str) -> str:
    """A game with a payload as its title, its palette, a colour, an object and a line that is no rule (line 13 is that)."""
    word = payload.replace(" ", "/")
    return (f"title {payload}\ncolor_palette {payload}\nOBJECTS\nBackground\nurl({word})\nPlayer\nwhite\nLEGEND\nCOLLISIONLAYERS\nBackground\nPlayer\nRULES\n{payload}\nWINCONDITIONS\nLEVELS\n"
            "p.\n")


def hostile_suite() -> Tuple[str, str]:
    """A sessions file with its lines: for each payload a session whose level can be read, one whose level can't, and one that is refused."""
    entries: List[Any] = []
    lines: List[Dict[str, Any]] = []

    def add(payload: str, level: Optional[str], close: str, cause: Optional[str] = None) -> None:
        number = len(entries)
        entries.append([payload, [source_of(payload), [3], "background:0,0,"]])
        kinds = ("start", "move") if level is not None else ()
        lines.extend({"at": at, "frame": at, "kind": kind, "level": level, "session": number} for at, kind in enumerate(kinds))
        lines.append({**({"cause": cause} if cause else {}), "close": close, "frames": len(kinds), "name": payload, "session": number})

    for payload in PAYLOADS:
        add(payload, f"{payload.replace(',', '').replace(':', '')} background:0,background:1,\n", "differs")
        add(payload, f"{payload},:0,\n", "differs")
        add(payload, None, "refused", REFUSED)
    return json.dumps(entries), "".join(json.dumps(it) + "\n" for it in lines)
