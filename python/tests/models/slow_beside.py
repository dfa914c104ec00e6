"""What may stay side by side in a program, by a plain slow program of the definition: all stores of two facts of one
symbol with values 0 and 1, each asked for a step of some rule."""

from __future__ import annotations

import itertools

from slow_verdict import Pattern, Program, Rule, Term, is_at_rest, store_text

VALUES = (0, 1)
BEGINNING = "What may stay side by side (searched: stores of two facts with values 0 and 1):"

Columns = frozenset[int]
"""Places of arguments, from 1."""


def are_equal(rule: Rule, left: Term, right: Term) -> bool:
    return left == right or bool({(left, "=:=", right), (right, "=:=", left)} & set(rule.guard))


def keys(program: Program, name: str, arity: int) -> list[Columns]:
    """For each two heads of the symbol in one rule the columns in which they agree."""
    found = []
    for rule in program.rules:
        heads = [head.terms for head in rule.heads if (head.name, len(head.terms)) == (name, arity)]
        for left, right in itertools.combinations(heads, 2):
            columns = enumerate(zip(left, right, strict=True), 1)
            found.append(frozenset(column for column, (one, other) in columns if are_equal(rule, one, other)))
    return found


def staying(program: Program, name: str, arity: int) -> dict[Columns, list[Pattern]]:
    """For each set of columns in which two that stay differ, the first such two."""
    found: dict[Columns, list[Pattern]] = {}
    atoms = [Pattern(name, values) for values in itertools.product(VALUES, repeat=arity)]
    for pair in itertools.combinations_with_replacement(atoms, 2):
        columns = enumerate(zip(pair[0].terms, pair[1].terms, strict=True), 1)
        apart = frozenset(column for column, (one, other) in columns if one != other)
        if apart not in found and is_at_rest(program, list(pair)):
            found[apart] = list(pair)
    return found


def smallest(apart: set[Columns], key: Columns) -> list[Columns]:
    """Those outside the key of which no part is one of them, by column 1 as 1, column 2 as 2, column 3 as 4."""
    outside = [columns for columns in apart if columns and not columns & key]
    least = [columns for columns in outside if not any(other < columns for other in outside)]
    return sorted(least, key=lambda columns: sum(1 << (column - 1) for column in columns))


def in_words(columns: Columns) -> str:
    return f"column{'s' * (len(columns) > 1)} {', '.join(map(str, sorted(columns)))}"


def told_of(program: Program, name: str, arity: int) -> list[str]:
    found = staying(program, name, arity)
    twice = found.get(frozenset())
    stays = f"may stay twice, as {store_text(twice)}" if twice else "never stays twice"
    lines = [f"a fact that is told twice {stays}"]
    compared = keys(program, name, arity)
    key = frozenset.intersection(*compared) if compared else frozenset()
    if compared and len(key) < arity:
        same = f" with the same {in_words(key)}" * bool(key)
        apart = smallest(set(found), key)
        lines += [
            f"two{same} may stay that differ in {in_words(columns)}, as {store_text(found[columns])}"
            for columns in apart
        ]
        lines += [] if apart else [f"no two{same} stay"]
    return [f"  {name}/{arity}: {line}" for line in lines]


def told(program: Program) -> str:
    """The lines of an explanation."""
    lines = [line for name, arity in program.symbols for line in told_of(program, name, arity)]
    return "".join(f"{line}\n" for line in ([BEGINNING] * bool(lines) + lines))
