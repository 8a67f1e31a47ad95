"""Plants single errors in tests/engine_by_the_book.py, and plays the cases of conformance/ with each: how many does the suite catch?

    tests/planting.py [--seed N] [--count N] [--shown] [--all]

Of the errors that can be planted COUNT are drawn by a seed (300), or --all are taken. Each that no case catches is named with its line. With --shown those
are played on 400 sessions of a generator too, by the same seed, and on the first presses of those of bench/sessions: one that changes an answer there is
one that the suite should have caught. The last line says how many were.
"""
from __future__ import annotations

import argparse
import ast
import copy
import json
import random
import signal
import subprocess
import sys
from pathlib import Path
from types import ModuleType
from typing import Any, Callable, Iterator, List, Optional, Sequence, Tuple, Union

TOP = Path(__file__).resolve().parent.parent
sys.path.insert(0, str(TOP / "python"))
from saxtegun import cases as cases_of_conformance

ENGINE = TOP / "tests" / "engine_by_the_book.py"
CASES = TOP / "conformance" / "cases"
# A case that takes longer than this is one of a limit's; an error that makes one run much longer is caught.
LONG, LIMIT = 0.5, 3
# So many presses of a session of bench/ are played.
PRESSES = 6
OTHERS = {
    ast.Eq: ast.NotEq, ast.NotEq: ast.Eq, ast.Lt: ast.LtE, ast.LtE: ast.Lt, ast.Gt: ast.GtE, ast.GtE: ast.Gt, ast.In: ast.NotIn, ast.NotIn: ast.In,
    ast.Is: ast.IsNot, ast.IsNot: ast.Is, ast.And: ast.Or, ast.Or: ast.And, ast.Add: ast.Sub, ast.Sub: ast.Add,
}  # fmt: skip
# What an engine writes, with its status; or how it fails.
Written = Union[str, Tuple[str, int]]
FUNCTIONS = {"any": "all", "all": "any", "min": "max", "max": "min"}


class TooLong(Exception):
    """A mutant goes on and on."""


# Errors


def swapped(items: List[Any]) -> List[Any]:
    return [items[1], items[0], *items[2:]]


def errors_of(node: ast.AST) -> Iterator[Tuple[str, Callable[..., Any]]]:
    """The errors that can be planted at a node: each a name, and what changes the node."""
    if isinstance(node, ast.Compare):
        yield from ((type(it).__name__, lambda n, at=at: n.ops.__setitem__(at, OTHERS[type(n.ops[at])]())) for at, it in enumerate(node.ops))
    if isinstance(node, (ast.BoolOp, ast.BinOp)) and type(node.op) in OTHERS:
        yield type(node.op).__name__, lambda n: setattr(n, "op", OTHERS[type(n.op)]())
    if isinstance(node, ast.BoolOp):
        yield from (("without a part", lambda n, at=at: n.values.__setitem__(at, ast.Constant(isinstance(n.op, ast.And)))) for at in range(len(node.values)))
    if isinstance(node, ast.Constant) and type(node.value) is bool:
        yield "the other", lambda n: setattr(n, "value", not n.value)
    elif isinstance(node, ast.Constant) and type(node.value) is int:
        yield "one more", lambda n: setattr(n, "value", n.value + 1)
        if node.value > 0:
            yield "one less", lambda n: setattr(n, "value", n.value - 1)
    if isinstance(node, (ast.Tuple, ast.List)) and len(node.elts) > 1 and all(isinstance(it, ast.Constant) for it in node.elts):
        yield "swapped", lambda n: setattr(n, "elts", swapped(n.elts))
        yield "the last is gone", lambda n: n.elts.pop()
    if isinstance(node, ast.Dict) and len(node.values) > 1:
        yield "swapped", lambda n: setattr(n, "values", swapped(n.values))
    if isinstance(node, ast.Name) and node.id in FUNCTIONS:
        yield "another function", lambda n: setattr(n, "id", FUNCTIONS[n.id])
    if isinstance(node, (ast.If, ast.IfExp)):
        yield "the other way", lambda n: setattr(n, "test", ast.UnaryOp(ast.Not(), n.test))
    if isinstance(node, ast.Call) and isinstance(node.func, ast.Name) and node.func.id in ("reversed", "sorted", "copy_of"):
        yield f"no {node.func.id}", lambda n: setattr(n, "func", ast.Name("list", ast.Load()))
    for field in ("body", "orelse"):
        for at, it in enumerate(getattr(node, field, []) if isinstance(getattr(node, field, []), list) else []):
            if isinstance(it, (ast.AugAssign, ast.Raise, ast.Continue)) or (isinstance(it, ast.Expr) and isinstance(it.value, ast.Call)):
                yield "left out", lambda n, field=field, at=at: getattr(n, field).__setitem__(at, ast.copy_location(ast.Pass(), getattr(n, field)[at]))


def functions_of(tree: ast.Module) -> List[ast.stmt]:
    """What of the engine is mutated: all but how it is called."""
    return [it for it in tree.body if not (isinstance(it, ast.If) or isinstance(it, (ast.Import, ast.ImportFrom)))]


class Mutant:
    """The engine with one error: at a node, by its place in the tree."""

    def __init__(self, place: int, number: int, name: str, line: int) -> None:
        self.place, self.number, self.name, self.line = place, number, name, line

    def __str__(self) -> str:
        return f"line {self.line}: {self.name}"

    def engine(self, tree: ast.Module) -> Optional[ModuleType]:
        """The module of the engine with the error; None where it can't even be loaded."""
        changed = copy.deepcopy(tree)
        node = nodes_of(changed)[self.place]
        list(errors_of(node))[self.number][1](node)
        try:
            return module_of(changed)
        except Exception:
            return None


def nodes_of(tree: ast.Module) -> List[ast.AST]:
    return [node for part in functions_of(tree) for node in ast.walk(part)]


def mutants_of(tree: ast.Module) -> List[Mutant]:
    found = []
    for place, node in enumerate(nodes_of(tree)):
        for number, (name, _) in enumerate(errors_of(node)):
            found.append(Mutant(place, number, name, getattr(node, "lineno", 0)))
    return found


def module_of(tree: ast.Module) -> ModuleType:
    module = ModuleType("engine")
    exec(compile(ast.fix_missing_locations(tree), str(ENGINE), "exec"), module.__dict__)
    return module


# Playing


def out_of_time(number: int, frame: Any) -> None:
    raise TooLong


def played(engine: ModuleType, entries: Sequence[Any], order: str, seconds: float = LIMIT) -> Written:
    """What an engine writes, or how it fails."""
    signal.signal(signal.SIGVTALRM, out_of_time)
    signal.setitimer(signal.ITIMER_VIRTUAL, seconds)
    try:
        written: Written = engine.recording(entries, order)
        return written
    except (Exception, RecursionError) as why:
        return type(why).__name__
    finally:
        signal.setitimer(signal.ITIMER_VIRTUAL, 0)


class Case:
    """A session file with the answer that is wanted."""

    def __init__(self, name: str, entries: List[Any], order: str, wanted: Written) -> None:
        self.name, self.entries, self.order, self.wanted, self.caught = name, entries, order, wanted, 0

    def catches(self, engine: ModuleType) -> bool:
        return played(engine, self.entries, self.order) != self.wanted


def played_case(case: cases_of_conformance.Case) -> Optional[Case]:
    """A case of the suite, or None where it is about files and command lines."""
    if case.status == 2 or case.words not in ([], ["--order", "rows"], ["--order", "columns"]):
        return None
    return Case(case.name, json.loads(case.input), case.words[1] if case.words else "columns", (case.stdout.decode(), case.status))


def cases(engine: ModuleType) -> Tuple[List[Case], List[str]]:
    """The cases of the suite that an engine answers as is wanted, but for those of large limits, which this one takes long for; and those that it doesn't."""
    found, wrong = [], []
    for case in filter(None, map(played_case, cases_of_conformance.plain_cases(CASES))):
        answer = played(engine, case.entries, case.order, LONG)
        if answer == case.wanted:
            found.append(case)
        elif answer != TooLong.__name__:
            wrong.append(case.name)
    return found, wrong


def catcher(engine: ModuleType, suite: List[Case]) -> Optional[Case]:
    """The first case that catches an error; those that caught most come first."""
    suite.sort(key=lambda it: -it.caught)
    for case in suite:
        if case.catches(engine):
            case.caught += 1
            return case
    return None


# Sessions of a generator, which know nothing of what is planted

NAMES = ("player", "crate", "wall", "spike", "mark", "target", "thing", "both", "heads", "one")
WORDS = (">", "<", "^", "v", "up", "down", "left", "right", "action", "stationary", "moving", "orthogonal", "horizontal", "vertical", "parallel", "perpendicular", "no")
HEAD = "OBJECTS\nBackground .\na\nTarget o\na\nPlayer p\na\nWall #\na\nCrate c\na\nSpike s\na\nMark m\na\nLEGEND\n@ = Crate and Target\nBoth = Crate and Mark\nThing = Crate or Wall\nHeads = Player or Crate or Spike\nOne = Spike or Spike\nCOLLISIONLAYERS\nBackground\nTarget\nPlayer, Wall, Crate, Spike\nMark\n"


def item_of(chance: random.Random, is_late: bool) -> str:
    word = chance.choice(WORDS) if chance.random() < 0.5 else ""
    return f"{word if not is_late or word == 'no' else ''} {chance.choice(NAMES)}".strip()


def side_of(chance: random.Random, shape: Sequence[Sequence[Union[int, str]]], is_late: bool) -> str:
    return " ".join("[ " + " | ".join(it if isinstance(it, str) else " ".join(item_of(chance, is_late) for _ in range(it)) for it in row) + " ]" for row in shape)


def rule_of(chance: random.Random) -> str:
    is_late = chance.random() < 0.2
    shape: List[List[Union[int, str]]] = [[chance.choice((0, 1, 1, 1, 2)) for _ in range(chance.choice((1, 1, 2, 2, 3)))] for _ in range(chance.choice((1, 1, 1, 2)))]
    if chance.random() < 0.15 and len(shape[0]) > 1:
        shape[0].insert(1, "...")
    right = side_of(chance, shape, is_late) if chance.random() < 0.85 else ""
    command = chance.choice(("again", "cancel", "checkpoint", "restart", "win", "sfx1")) if chance.random() < 0.25 else ""
    before = [chance.choice(("+", "")) if chance.random() < 0.3 else "", "late" if is_late else "", chance.choice(("up", "left", "right", "down", "horizontal", "vertical")) if chance.random() < 0.4 else ""]
    return " ".join([*before, side_of(chance, shape, is_late), "->", right, command])


def rules_of(chance: random.Random) -> str:
    rules = [rule_of(chance) for _ in range(chance.randint(1, 4))]
    if chance.random() < 0.2:
        at = chance.randrange(len(rules))
        rules[at : at + 1] = ["startloop", rules[at], rule_of(chance), "endloop"]
    return "\n".join(rules)


def wins_of(chance: random.Random) -> str:
    kinds = ("all", "some", "any", "no")
    return "\n".join(f"{chance.choice(kinds)} {chance.choice(NAMES)}" + (f" on {chance.choice(NAMES)}" if chance.random() < 0.5 else "") for _ in range(chance.choice((0, 1, 1, 2))))


def level_of(chance: random.Random) -> str:
    width, height = chance.randint(1, 5), chance.randint(1, 4)
    return "\n".join("".join(chance.choice("....p#csmo@") for _ in range(width)) for _ in range(height))


def session_of(chance: random.Random) -> List[Any]:
    options = "".join(f"{it}\n" for it in ("run_rules_on_level_start", "require_player_movement") if chance.random() < 0.2)
    levels = "\n\n".join(chance.choice((level_of(chance), level_of(chance), "message x")) for _ in range(chance.randint(1, 3)))
    source = f"{options}{HEAD}RULES\n{rules_of(chance)}\nWINCONDITIONS\n{wins_of(chance)}\nLEVELS\n{levels}\n"
    inputs = [chance.choice((0, 1, 2, 3, 3, 4, "undo", "restart", "tick")) for _ in range(8)]
    return ["a", [source, inputs, "", 0]]


def generated(seed: int, count: int, engine: ModuleType) -> List[Case]:
    """Sessions of a seed that are played, with what the engine answers: most random rules are refused."""
    chance = random.Random(seed)
    found: List[Case] = []
    while len(found) < count:
        entry = session_of(chance)
        wanted = played(engine, [entry], "rows", 1)
        if isinstance(wanted, tuple) and '"close":"refused"' not in wanted[0]:
            found.append(Case("generated", [entry], "rows", wanted))
    return found


def benched(engine: ModuleType) -> List[Case]:
    """The sessions of bench/sessions by their first presses, with what the engine answers."""
    found = []
    for kind in ("small", "push", "again"):
        text = subprocess.run([sys.executable, TOP / "bench" / "sessions", kind, "1"], stdout=subprocess.PIPE, check=True).stdout
        entries = [[name, [source, inputs[:PRESSES], level, *more]] for name, (source, inputs, level, *more) in json.loads(text)]
        found.append(Case(f"bench {kind}", entries, "columns", played(engine, entries, "columns", 60)))
    return found


def drawn(tree: ast.Module, seed: int, count: int) -> List[Mutant]:
    """So many of the errors that can be planted."""
    return random.Random(seed).sample(mutants_of(tree), count)


def main(words: Sequence[str]) -> int:
    reader = argparse.ArgumentParser(description=__doc__, formatter_class=argparse.RawDescriptionHelpFormatter)
    reader.add_argument("--seed", type=int, default=83)
    reader.add_argument("--count", type=int, default=300)
    reader.add_argument("--all", action="store_true")
    reader.add_argument("--shown", action="store_true")
    given = reader.parse_args(words)
    tree = ast.parse(ENGINE.read_text(encoding="utf-8"))
    good = module_of(copy.deepcopy(tree))
    suite, wrong = cases(good)
    if wrong:
        print(f"without an error it fails {', '.join(wrong)}")
        return 2
    more = [*generated(given.seed, 400, good), *benched(good)] if given.shown else []
    chosen = mutants_of(tree) if given.all else drawn(tree, given.seed, given.count)
    left, shown = [], 0
    for mutant in chosen:
        engine = mutant.engine(tree)
        if engine is not None and catcher(engine, suite) is None:
            other = catcher(engine, more)
            shown += other is not None
            left.append(mutant)
            print(f"{mutant}{f' (a session shows it: {other.name})' if other else ''}", flush=True)
            if other:
                print(f"    {json.dumps(other.entries[0][1][:2])}")
    print(f"{len(chosen)} errors planted: {len(chosen) - len(left)} caught, {len(left)} not" + (f", of which {shown} are shown by another session" if given.shown else ""))
    return 0


if __name__ == "__main__":
    sys.exit(main(sys.argv[1:]))
