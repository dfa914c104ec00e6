"""Programs made at random: few symbols, so that heads overlap, and few constants, some of them at the ends of the
64-bit numbers."""

import random
from dataclasses import dataclass

from slow_verdict import GREATEST, LEAST, SIGNS, Pattern, Program, Rule, Term

CONSTANTS = ((0, 1, 3), (1, 3), (7,), (GREATEST, GREATEST - 1, 0), (LEAST, LEAST + 2, 2), ())
"""Between 0 and 1 lies no whole number and between 1 and 3 one; beyond the ends lies none."""

NAMES = "abcpqr"

RECORD_SHAPES = ((1, 1), (1, 1), (1, 1), (0, 2), (1, 2))
"""The numbers of kept and removed heads of a rule of records."""

VALUES = 4
"""How many values stand in a store."""

BODIES = 3
"""How many bodies are tried for one that weighs less than the removed heads; else it is these: the rule is refused."""


@dataclass
class Maker:
    """What the rules of one program are made of."""

    chance: random.Random
    symbols: dict[tuple[str, int], int]
    constants: tuple[int, ...]
    variables: int

    def term(self, variables: list[str]) -> Term:
        if self.constants and (not variables or self.chance.random() < 0.2):
            return self.chance.choice(self.constants)
        return self.chance.choice(variables) if variables else 0

    def atoms(self, count: int, variables: list[str]) -> tuple[Pattern, ...]:
        symbols = self.chance.choices(list(self.symbols), k=count)
        return tuple(Pattern(name, tuple(self.term(variables) for _ in range(arity))) for name, arity in symbols)

    def rule(self) -> Rule:
        kept, removed = self.chance.choice(((0, 1), (0, 2), (0, 2), (1, 1), (1, 1), (1, 2)))
        heads = self.atoms(kept + removed, [f"X{number}" for number in range(1, self.variables + 1)])
        known = sorted({term for head in heads for term in head.terms if isinstance(term, str)})
        signs = self.chance.choices(list(SIGNS), k=self.chance.choice((0, 0, 1, 1, 2)) if known else 0)
        guard = tuple((self.chance.choice(known), sign, self.term(known)) for sign in signs)
        bodies = (self.atoms(self.chance.choice((0, 0, 1, 1, 2)), known) for _ in range(BODIES))
        light = (body for body in bodies if self.weight(body) < self.weight(heads[kept:]))
        return Rule(heads[:kept], heads[kept:], guard, next(light, heads[kept:]))

    def record_rule(self) -> Rule:
        """A rule over records of one symbol: some columns are keys, which the heads share, and some of the others are
        compared, head by head or with a constant."""
        (name, arity), chance = next(iter(self.symbols)), self.chance
        kept, removed = chance.choice(RECORD_SHAPES)
        keys = {column for column in range(arity) if chance.random() < 0.4}
        others = [column for column in range(arity) if column not in keys]
        heads = tuple(
            Pattern(name, tuple(f"K{column}" if column in keys else self.own(head, column) for column in range(arity)))
            for head in range(kept + removed)
        )
        known = sorted({term for head in heads for term in head.terms if isinstance(term, str)})
        compared = chance.choices(others, k=chance.choice((0, 1, 1, 1, 2, 2))) if others and known else []
        guard = tuple(self.comparison(heads, column, known) for column in compared)
        bodies = (self.atoms(chance.choice((0, 0, 0, 1)), known) for _ in range(BODIES))
        light = (body for body in bodies if self.weight(body) < self.weight(heads[kept:]))
        return Rule(heads[:kept], heads[kept:], guard, next(light, ()))

    def own(self, head: int, column: int) -> Term:
        if self.constants and self.chance.random() < 0.05:
            return self.chance.choice(self.constants)
        return f"X{head}{column}"

    def comparison(self, heads: tuple[Pattern, ...], column: int, known: list[str]) -> tuple[Term, str, Term]:
        """Of two heads in a column, or seldom of any variable."""
        one, other = self.chance.sample(heads, 2)
        left, sign, right = one.terms[column], self.chance.choice(list(SIGNS)), other.terms[column]
        return (left, sign, self.term(known) if self.chance.random() < 0.15 else right)

    def weight(self, atoms: tuple[Pattern, ...]) -> int:
        return sum(self.symbols[atom.name, len(atom.terms)] for atom in atoms)


def record_program(chance: random.Random) -> Program:
    """One or two rules over records of three to six columns, and a lighter symbol: most have overlaps with more classes
    than joint order types can be decided for."""
    symbols = {("record", chance.randint(3, 6)): 2, ("note", chance.randint(0, 2)): 1}
    maker = Maker(chance, symbols, chance.choice(CONSTANTS), 0)
    return Program(symbols, tuple(maker.record_rule() for _ in range(chance.randint(1, 2))))


def program(chance: random.Random) -> Program:
    """One to three rules over two to four symbols of up to six arguments."""
    arities = chance.choice(((0, 1), (1, 1, 2), (0, 1, 2), (2, 2), (1, 3), (2, 3, 0), (1, 6), (4, 0)))
    symbols = {(name, arity): chance.randint(1, 3) for name, arity in zip(NAMES, arities, strict=False)}
    maker = Maker(chance, symbols, chance.choice(CONSTANTS), chance.randint(1, 4))
    return Program(symbols, tuple(maker.rule() for _ in range(chance.randint(1, 3))))


def long_program(chance: random.Random) -> Program:
    """Eight to twelve rules, some of them copies, of few arguments: more overlaps than one thread looks at."""
    symbols = {("a", 1): chance.randint(1, 3), ("b", chance.choice((1, 2))): chance.randint(1, 3)}
    maker = Maker(chance, symbols, chance.choice(CONSTANTS), 2)
    rules = [maker.rule() for _ in range(chance.randint(2, 6))]
    return Program(symbols, tuple(chance.choices(rules, k=chance.randint(8, 12))))


def store(chance: random.Random, of: Program, count: int) -> list[Pattern]:
    """Atoms of the program's symbols, whose values are few, so that they meet, and lie near its constants."""
    near = {value + step for value in of.constants() or [0] for step in (-1, 0, 1, 2)}
    values = sorted(value for value in near if LEAST <= value <= GREATEST)
    values = chance.sample(values, min(len(values), VALUES))
    symbols = chance.choices(list(of.symbols), k=count)
    return [Pattern(name, tuple(chance.choice(values) for _ in range(arity))) for name, arity in symbols]
