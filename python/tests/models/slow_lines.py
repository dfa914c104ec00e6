"""Whole runs by a plain slow model: the verdict on a text, and for each command line its answer. Replicas are
dictionaries from ids to lists of atoms. Nothing here is shared with the program that is tested."""

from __future__ import annotations

import functools
import itertools
import json
import math
import re
from collections.abc import Callable
from dataclasses import dataclass, field
from typing import Any

from slow_reader import RADIX, Fault, read
from slow_verdict import GREATEST, LEAST, Pattern, Program, plain_end, store_text, verdict

MAX_LINE = 1_048_576
MAX_DEPTH = 127
MAX_ORIGIN = 2**32 - 1
MAX_NUMBER = 2**64 - 1
MAX_OPERATION = 64
MAX_TOLD = 1_000_000

Id = tuple[int, int]
Bag = tuple[Pattern, ...]
Operations = list[tuple[Id, Bag]]
Ranges = list[tuple[int, int, int]]
"""Each an origin and its first and last number."""


class Refused(Exception):
    """The number of a refusal."""


def bag_of(atoms: list[Pattern]) -> Bag:
    return tuple(sorted(atoms, key=lambda atom: (atom.name.encode(), len(atom.terms), atom.terms)))


# ---- JSON


def float_of(text: str) -> float:
    value = float(text)
    if math.isinf(value):
        raise ValueError
    return value


def number_of(text: str) -> int | float:
    """Whole numbers of 64 bits, with a sign or without; others are floats, and too large ones are none."""
    if text != "-0" and len(text) < 30 and LEAST <= int(text) <= MAX_NUMBER:
        return int(text)
    return float_of(text)


def refuse_constant(_: str) -> None:
    raise ValueError


def depth_of(text: str) -> int:
    """How deep its brackets are nested; those of strings are left out."""
    plain = re.sub(r'"(?:\\.|[^"\\])*"?', "", text, flags=re.DOTALL)
    steps = (1 if sign in "[{" else -1 for sign in re.findall(r"[][{}]", plain))
    return max(itertools.accumulate(steps), default=0)


def value_of(line: bytes) -> Any:
    """The JSON value of a line. Raises `Refused` where it has none."""
    try:
        text = line.decode("utf-8")
        if depth_of(text) > MAX_DEPTH:
            raise ValueError
        value = json.loads(text, parse_int=number_of, parse_float=float_of, parse_constant=refuse_constant)
        # a surrogate without its other half stands for no text
        json.dumps(value, ensure_ascii=False).encode("utf-8")
    except (ValueError, RecursionError):
        raise Refused(30) from None
    return value


# ---- shapes


def require(condition: bool) -> None:
    if not condition:
        raise Refused(31)


def is_natural(value: Any, most: int = MAX_NUMBER) -> bool:
    return type(value) is int and 0 <= value <= most


def list_in(value: Any, *lengths: int) -> list[Any]:
    require(isinstance(value, list) and (not lengths or len(value) in lengths))
    return list(value)


def natural_in(value: Any, most: int = MAX_NUMBER) -> int:
    require(is_natural(value, most))
    return int(value)


def id_in(value: Any) -> Id:
    origin, number = list_in(value, 2)
    return natural_in(origin, MAX_ORIGIN), natural_in(number)


def bag_in(value: Any) -> Bag:
    atoms = []
    for atom in list_in(value, *range(1, MAX_OPERATION + 1)):
        name, *terms = list_in(atom) or [None]
        require(isinstance(name, str) and all(type(it) is int and LEAST <= it <= GREATEST for it in terms))
        atoms.append(Pattern(name, tuple(terms)))
    return bag_of(atoms)


def summary_in(value: Any) -> Ranges:
    ranges = []
    for origin, parts in (list_in(it, 2) for it in list_in(value)):
        natural_in(origin, MAX_ORIGIN)
        for part in list_in(parts):
            first, last = map(natural_in, list_in(part, 2))
            require(first <= last)
            ranges.append((origin, first, last))
    return ranges


def delta_in(value: Any) -> Operations:
    items = list_in(value)
    if items and isinstance(items[0], int | float) and not isinstance(items[0], bool):
        version, groups = list_in(items, 2)
        require(type(version) is int and version == 2)
        found = []
        for origin, parts in (list_in(it, 2) for it in list_in(groups)):
            natural_in(origin, MAX_ORIGIN)
            for number, atoms in (list_in(it, 2) for it in list_in(parts)):
                found.append(((origin, natural_in(number)), bag_in(atoms)))
        return found
    return [(id_in(id), bag_in(atoms)) for id, atoms in (list_in(it, 2) for it in items)]


# ---- texts


def compact(value: Any) -> str:
    return json.dumps(value, separators=(",", ":"), ensure_ascii=False)


def summary_text(held: dict[Id, Bag]) -> str:
    summary: list[tuple[int, list[list[int]]]] = []
    for origin, ids in itertools.groupby(sorted(held), key=lambda id: id[0]):
        ranges: list[list[int]] = []
        for _, number in ids:
            if ranges and ranges[-1][1] + 1 == number:
                ranges[-1][1] = number
            else:
                ranges.append([number, number])
        summary.append((origin, ranges))
    return compact(summary)


def delta_text(operations: Operations, version: int) -> str:
    told = [(id, [[atom.name, *atom.terms] for atom in bag]) for id, bag in sorted(operations)]
    if version == 1:
        return compact(told)
    groups = itertools.groupby(told, key=lambda operation: operation[0][0])
    return compact([2, [[origin, [[id[1], atoms] for id, atoms in group]] for origin, group in groups]])


# ---- replicas


@dataclass
class World:
    program: Program
    replicas: list[dict[Id, Bag]] = field(default_factory=list)

    def answer(self, line: bytes) -> str | None:
        """What a line is answered, or None where it is blank."""
        line = line.removesuffix(b"\r")
        if not line.strip(b" \t"):
            return None
        try:
            if len(line) > MAX_LINE:
                raise Refused(30)
            return self.obey(value_of(line))
        except Refused as refused:
            return f"refused {refused}"

    def obey(self, command: Any) -> str:
        verb, *words = list_in(command) or [None]
        commands: dict[str, tuple[Callable[..., str], int, int]] = {
            "tell": (self.tell, 3, 3),
            "show": (self.show, 1, 1),
            "sync": (self.sync, 2, 2),
            "summary": (self.summary, 1, 1),
            "lacks": (self.lacks, 2, 3),
            "merge": (self.merge, 2, 2),
        }
        require(isinstance(verb, str) and verb in commands)
        call, least, most = commands[str(verb)]
        require(least <= len(words) <= most)
        return call(*words)

    def replica(self, number: int) -> dict[Id, Bag]:
        if not 1 <= number <= len(self.replicas):
            raise Refused(35)
        return self.replicas[number - 1]

    def require_declared(self, operations: Operations) -> None:
        if any((atom.name, len(atom.terms)) not in self.program.symbols for _, bag in operations for atom in bag):
            raise Refused(32)

    def take_in(self, held: dict[Id, Bag], operations: Operations) -> int:
        """How many were new. All are taken in, or none."""
        after = dict(held)
        for id, bag in operations:
            if after.setdefault(id, bag) != bag:
                raise Refused(33)
        if sum(map(len, after.values())) > MAX_TOLD:
            raise Refused(34)
        new = len(after) - len(held)
        held |= after
        return new

    def tell(self, replica: Any, id: Any, atoms: Any) -> str:
        natural_in(replica)
        operations = [(id_in(id), bag_in(atoms))]
        self.require_declared(operations)
        return "told" if self.take_in(self.replica(replica), operations) else "again"

    def show(self, replica: Any) -> str:
        told = self.replica(natural_in(replica)).values()
        return store_text(plain_end(self.program, list(itertools.chain(*told))))

    def sync(self, giver: Any, taker: Any) -> str:
        natural_in(giver)
        natural_in(taker)
        held, given = self.replica(taker), self.replica(giver)
        return f"synced {self.take_in(held, [(id, bag) for id, bag in given.items() if id not in held])}"

    def summary(self, replica: Any) -> str:
        return summary_text(self.replica(natural_in(replica)))

    def lacks(self, replica: Any, summary: Any, version: Any = 2) -> str:
        natural_in(replica)
        ranges = summary_in(summary)
        require(type(version) is int and version in (1, 2))
        held = self.replica(replica).items()

        def is_covered(id: Id) -> bool:
            return any(origin == id[0] and first <= id[1] <= last for origin, first, last in ranges)

        return delta_text([(id, bag) for id, bag in held if not is_covered(id)], version)

    def merge(self, replica: Any, delta: Any) -> str:
        natural_in(replica)
        operations = delta_in(delta)
        self.require_declared(operations)
        return f"merged {self.take_in(self.replica(replica), operations)}"


# ---- whole runs


def parts(given: bytes) -> tuple[bytes, list[bytes]]:
    """The text, up to the first line `---`, and the lines after it."""
    divider = re.search(rb"(?:\A|(?<=\n))---\r?(?:\n|\Z)", given)
    if not divider:
        return given, []
    lines = given[divider.end() :].split(b"\n")
    return given[: divider.start()], lines if lines[-1] else lines[:-1]


def weighed(line: str, program: Program) -> str:
    """The line of a rule that doesn't lower, with weights as they were declared."""
    is_pair = any(weight % RADIX for weight in program.symbols.values())

    def told(found: re.Match[str]) -> str:
        first, second = divmod(int(found[0]), RADIX)
        return f"{first},{second}" if is_pair else str(first)

    rule, *sums = line.split("; ")
    return "; ".join([rule, *(re.sub(r"\d+", told, it) for it in sums)])


@functools.lru_cache(maxsize=8)
def verdict_of(text: bytes, most: int, wide: bool) -> tuple[str, Program | None]:
    """The line of the verdict, and the program where it is accepted. `TooSlow` may be raised."""
    try:
        program = read(text)
    except Fault as fault:
        number, clause = fault.args
        return f"refused {number}" + f": clause {clause}" * bool(clause), None
    line = verdict(program, most, wide)
    if line.startswith("refused 20"):
        line = weighed(line, program)
    return line, program if line.startswith("accepted") else None


def output_of(given: bytes, replicas: int, most: int, wide: bool) -> list[str]:
    """The lines of a run."""
    text, lines = parts(given)
    line, program = verdict_of(text, most, wide)
    if program is None:
        return [line]
    world = World(program, [{} for _ in range(replicas)])
    return [line, *(answer for answer in map(world.answer, lines) if answer is not None)]
