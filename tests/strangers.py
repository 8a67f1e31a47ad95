"""Names and sources by somebody who wants to run a script in the report."""
from __future__ import annotations

import json
from typing import Optional, Sequence, Tuple

# What could end a script, begin one, or close a text of the page or of XML.
NAMES = (
    "</script><script>window.hacked = 1</script>",
    "<img src=x onerror=window.hacked=1>",
    "<!--<script>",
    "]]>&amp;&lt;'\"`${window.hacked = 1}\\",
    "@script@ @data@ \u2028\u2029\u0000\u0001\u007f\ufffe\uffff\ufeff",
    "javascript:window.hacked=1",
)
# Every letter of Unicode, but for the halves of letters.
LETTERS = "".join(chr(code) for code in range(0x110000) if not 0xD800 <= code <= 0xDFFF)
EVIL = "<img/src=x/onerror=window.hacked=1>"
SOURCE = f"""title </title><script>window.hacked = 1</script>
color_palette "><script>window.hacked=1</script>
OBJECTS
Background .
url(javascript:window.hacked=1)
Player p {EVIL}
#fff
LEGEND
COLLISIONLAYERS
Background
Player
RULES
</pre><script>window.hacked = 1</script>
WINCONDITIONS
LEVELS
p.
"""


def sessions_and_lines(names: Sequence[str], last: Optional[str] = None) -> Tuple[str, str]:
    """For each name a session that differs and one that is refused, and one more for the last, with the lines that a program would write."""
    entries, lines = [], []
    level = f"{EVIL} background:0,background:1,\n"
    for number, name in enumerate(names):
        entries += [[name, [SOURCE, [], "background:0,0,"]], [name, [SOURCE, [], "background:0,0,"]]]
        lines.append({"at": 0, "frame": 0, "kind": "start", "level": level, "session": 2 * number})
        lines.append({"close": "differs", "frames": 1, "name": name, "session": 2 * number})
        lines.append({"cause": "BadRule:13", "close": "refused", "frames": 0, "name": name, "session": 2 * number + 1})
    if last is not None:
        lines.append({"cause": "BadRule:13", "close": "refused", "frames": 0, "name": last, "session": len(entries)})
        entries.append([last, [SOURCE, [], "background:0,0,"]])
    return json.dumps(entries), "".join(json.dumps(line) + "\n" for line in lines)
