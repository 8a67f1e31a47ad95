"""A source with one rule or win line left out, its other lines where they were."""
from __future__ import annotations

from typing import Dict, List

from saxtegun.descriptions import Description, Line, description_of

LOOPS = (("startloop",), ("endloop",))
# A line that is left out in every section: of comments alone, or in the place of another line.
LEFT_OUT = "="


class Omissions:
    """A source of which lines are left out, one at a time. What it is written with are its lines without their comments, each at its number."""

    def __init__(self, source: str) -> None:
        self.told = description_of(source)
        self.texts = [LEFT_OUT] * (source.count("\n") + 1)
        for number, text in self.told.lines.with_headings():
            self.texts[number - 1] = text
        rules = self.told.rules
        # the rule that would begin a group where another that began it is left out
        self.heirs: Dict[int, int] = {one.number: other.number for one, other in zip(rules, rules[1:]) if not one.joins and other.joins}

    def parts(self) -> List[Line]:
        """Each rule and win line."""
        return parts_in(self.told)

    def without(self, part: Line) -> str:
        """The source without a line. Where it began a group, the next line of the group begins it."""
        texts = [*self.texts]
        texts[part.number - 1] = LEFT_OUT
        heir = self.heirs.get(part.number)
        if heir is not None:
            texts[heir - 1] = texts[heir - 1].replace("+", " ", 1)
        return "\n".join(texts)


def parts_in(told: Description) -> List[Line]:
    """The rules and win lines of a source."""
    numbers = {it.number for it in (*told.rules, *told.wins) if tuple(it.words) not in LOOPS}
    return [it for it in told.lines if it.number in numbers]
