"""The clauses of an accepted program's text, as far as this package reads them.

Such a text has neither strings nor quoted names, a full stop ends each clause, and a comment goes from a percent sign
to the end of its line. No two words stand side by side but behind `:-`, so without layout a clause has one form.
"""

import re
from collections.abc import Iterator
from typing import NamedTuple, TypeAlias

Symbol: TypeAlias = tuple[str, int]
"""A name, and a number of arguments."""

Pattern: TypeAlias = tuple[str, tuple[str, ...]]
"""A name, and its arguments as they are written."""

_LAYOUT = re.compile(r"%[^\n]*|\s")
_CONSTRAINTS = ":-chr_constraint"
_SYMBOL = re.compile(r"([a-z]\w*)/(\d+)", re.ASCII)
_WEIGHT = re.compile(r":-chr_weight([a-z]\w*)/(\d+)=(-?\d+)(?:,(-?\d+))?", re.ASCII)
_PATTERN = re.compile(r"([a-z]\w*)(?:\(([^()]*)\))?", re.ASCII)
_NOTHING: Pattern = ("true", ())


class Rule(NamedTuple):
    """A rule `NAME @ KEPT \\ TAKEN <=> GUARD | BODY`, whose parts may be empty."""

    name: str
    kept: list[Pattern]
    taken: list[Pattern]
    guard: list[str]
    """The comparisons as they are written, without layout."""
    body: list[Pattern]
    """What is left, but for `true`."""


def clauses_of(program: str) -> list[str]:
    """The clauses without layout, comments and full stops."""
    return _LAYOUT.sub("", program).split(".")


def symbols_of(program: str) -> Iterator[Symbol]:
    """The symbols that the program declares, in their order."""
    for clause in clauses_of(program):
        if clause.startswith(_CONSTRAINTS):
            for name, arity in _SYMBOL.findall(clause.removeprefix(_CONSTRAINTS)):
                yield name, int(arity)


def weights_of(program: str) -> dict[Symbol, tuple[int, int]]:
    """The weights that the program declares; one number is the first of two."""
    found = [match.groups() for match in map(_WEIGHT.fullmatch, clauses_of(program)) if match]
    return {(name, int(arity)): (int(first), int(second or 0)) for name, arity, first, second in found}


def rules_of(program: str) -> list[Rule]:
    """The rules, in their order."""
    return [_rule_of(clause) for clause in clauses_of(program) if "<=>" in clause]


def patterns_of(text: str) -> list[Pattern]:
    """Patterns, or atoms, that stand side by side."""
    return [(name, tuple(arguments.split(",")) if arguments else ()) for name, arguments in _PATTERN.findall(text)]


def _rule_of(clause: str) -> Rule:
    front, _, rest = clause.partition("<=>")
    name, _, heads = front.rpartition("@")
    kept, _, taken = heads.rpartition("\\")
    guard, bar, body = rest.rpartition("|")
    left = [it for it in patterns_of(body) if it != _NOTHING]
    return Rule(name, patterns_of(kept), patterns_of(taken), guard.split(",") if bar else [], left)
