"""The verdicts on a program, and the ends of its stores, by plain slow programs of the definitions: all matchings, all
order types, or all lists of values sort by sort, all tuples of atoms. Nothing here is shared with the program that is
tested."""

from __future__ import annotations

import itertools
from collections.abc import Callable, Iterator
from dataclasses import dataclass
from math import comb, prod

LEAST, GREATEST = -(2**63), 2**63 - 1
MAX_TYPES = 50_000

Term = str | int
"""A variable, or a constant."""

SIGNS: dict[str, Callable[[int, int], bool]] = {
    "<": lambda x, y: x < y,
    "=<": lambda x, y: x <= y,
    ">": lambda x, y: x > y,
    ">=": lambda x, y: x >= y,
    "=:=": lambda x, y: x == y,
    "=\\=": lambda x, y: x != y,
}


@dataclass(frozen=True)
class Pattern:
    """An atom of a rule. Without variables it is one of a store."""

    name: str
    terms: tuple[Term, ...]

    def __str__(self) -> str:
        return f"{self.name}({','.join(map(str, self.terms))})" if self.terms else self.name


@dataclass(frozen=True)
class Rule:
    kept: tuple[Pattern, ...]
    removed: tuple[Pattern, ...]
    guard: tuple[tuple[Term, str, Term], ...]
    body: tuple[Pattern, ...]

    @property
    def heads(self) -> tuple[Pattern, ...]:
        return self.kept + self.removed

    def __str__(self) -> str:
        kept, removed, body = (", ".join(map(str, atoms)) for atoms in (self.kept, self.removed, self.body))
        guard = ", ".join(f"{left} {sign} {right}" for left, sign, right in self.guard)
        return f"{kept} \\ " * bool(kept) + f"{removed} <=> " + f"{guard} | " * bool(guard) + f"{body or 'true'}."


@dataclass(frozen=True)
class Program:
    symbols: dict[tuple[str, int], int]
    """The weight of each symbol, in the order in which they are declared."""
    rules: tuple[Rule, ...]

    def __str__(self) -> str:
        declared = ", ".join(f"{name}/{arity}" for name, arity in self.symbols)
        weighed = self.symbols.items()
        weights = "".join(f":- chr_weight {name}/{arity} = {weight}.\n" for (name, arity), weight in weighed)
        return f":- chr_constraint {declared}.\n{weights}" + "".join(f"{rule}\n" for rule in self.rules)

    def weight(self, atoms: tuple[Pattern, ...]) -> int:
        return sum(self.symbols[atom.name, len(atom.terms)] for atom in atoms)

    def in_order(self, atoms: list[Pattern]) -> list[Pattern]:
        """The atoms by their symbols as declared, then by their arguments."""
        places = list(self.symbols)
        return sorted(atoms, key=lambda atom: (places.index((atom.name, len(atom.terms))), atom.terms))

    def constants(self) -> list[int]:
        """Those of all heads, guards and bodies, rising."""
        terms = [term for rule in self.rules for atom in rule.heads + rule.body for term in atom.terms]
        terms += [term for rule in self.rules for left, _, right in rule.guard for term in (left, right)]
        return sorted({term for term in terms if isinstance(term, int)})


# ---- stores

Valuation = dict[str, int]


def store_text(atoms: list[Pattern]) -> str:
    return ", ".join(map(str, sorted(atoms, key=lambda atom: (atom.name, len(atom.terms), atom.terms)))) or "true"


def value_of(term: Term, at: Valuation) -> int:
    return at[term] if isinstance(term, str) else term


def atoms_at(patterns: tuple[Pattern, ...], at: Valuation) -> list[Pattern]:
    return [Pattern(atom.name, tuple(value_of(term, at) for term in atom.terms)) for atom in patterns]


def guard_holds(rule: Rule, at: Valuation) -> bool:
    return all(SIGNS[sign](value_of(left, at), value_of(right, at)) for left, sign, right in rule.guard)


def matched(rule: Rule, atoms: tuple[Pattern, ...]) -> Valuation | None:
    """The valuation at which these atoms are the rule's heads and its guard holds."""
    at: Valuation = {}
    for head, atom in zip(rule.heads, atoms, strict=True):
        if (head.name, len(head.terms)) != (atom.name, len(atom.terms)):
            return None
        for term, value in zip(head.terms, atom.terms, strict=True):
            # (an atom of a store has values alone)
            if (at.setdefault(term, value) if isinstance(term, str) else term) != value:  # type: ignore[arg-type]
                return None
    return at if guard_holds(rule, at) else None


def after(rule: Rule, at: Valuation, store: list[Pattern]) -> list[Pattern]:
    """The store without the removed heads and with the body."""
    left = list(store)
    for atom in atoms_at(rule.removed, at):
        left.remove(atom)
    return left + atoms_at(rule.body, at)


def steps(program: Program, store: list[Pattern]) -> Iterator[list[Pattern]]:
    """The stores after each step, by rule and then by the tuple of head atoms."""
    atoms = program.in_order(store)
    for rule in program.rules:
        for chosen in itertools.permutations(atoms, len(rule.heads)):
            at = matched(rule, chosen)
            if at is not None:
                yield after(rule, at, atoms)


def plain_end(program: Program, store: list[Pattern]) -> list[Pattern]:
    """Where the derivation ends that takes the first step at each store."""
    while (following := next(steps(program, store), None)) is not None:
        store = following
    return store


# ---- overlaps


def matchings(first: Rule, second: Rule) -> Iterator[tuple[int, ...]]:
    """For each head of the first rule 0, or the head of the second, from 1, that it is matched with."""
    for matching in itertools.product(range(len(second.heads) + 1), repeat=len(first.heads)):
        pairs = [(place, entry - 1) for place, entry in enumerate(matching) if entry]
        places = [other for _, other in pairs]
        symbols = [(first.heads[here], second.heads[there]) for here, there in pairs]
        if (
            len(set(places)) == len(places)
            and all((a.name, len(a.terms)) == (b.name, len(b.terms)) for a, b in symbols)
            and any(here >= len(first.kept) or there >= len(second.kept) for here, there in pairs)
        ):
            yield matching


def renamed(rule: Rule, mark: str) -> Rule:
    def term(it: Term) -> Term:
        return it + mark if isinstance(it, str) else it

    def atoms(patterns: tuple[Pattern, ...]) -> tuple[Pattern, ...]:
        return tuple(Pattern(atom.name, tuple(map(term, atom.terms))) for atom in patterns)

    guard = tuple((term(left), sign, term(right)) for left, sign, right in rule.guard)
    return Rule(atoms(rule.kept), atoms(rule.removed), guard, atoms(rule.body))


def variables(rule: Rule) -> list[str]:
    """In the order of first occurrence in the heads."""
    return list(dict.fromkeys(term for head in rule.heads for term in head.terms if isinstance(term, str)))


def matching_equations(first: Rule, second: Rule, matching: tuple[int, ...]) -> list[tuple[Term, Term]]:
    """The arguments that matched heads have at one place."""
    pairs = ((head, second.heads[entry - 1]) for head, entry in zip(first.heads, matching, strict=True) if entry)
    return [equation for head, other in pairs for equation in zip(head.terms, other.terms, strict=True)]


def guard_equations(rule: Rule) -> list[tuple[Term, Term]]:
    return [(left, right) for left, sign, right in rule.guard if sign == "=:="]


def unified(names: list[str], equations: list[tuple[Term, Term]]) -> dict[str, Term] | None:
    """For each variable the constant of its class, or else its first variable; None where two constants are one."""
    classes: dict[str, Term] = {name: name for name in names}
    for pair in equations:
        left, right = (classes[term] if isinstance(term, str) else term for term in pair)
        if isinstance(left, int) and isinstance(right, int) and left != right:
            return None
        # a constant stands for its class, or else the earlier variable does
        least = min((left, right), key=lambda it: -1 if isinstance(it, int) else names.index(it))
        classes = {name: least if it in (left, right) else it for name, it in classes.items()}
    return classes


# ---- order types


def rooms(constants: list[int]) -> list[int]:
    """How many values lie below the least constant, between two, and above the greatest; without constants, from 0."""
    if not constants:
        return [GREATEST + 1]
    between = [high - low - 1 for low, high in itertools.pairwise(constants)]
    return [constants[0] - LEAST, *between, GREATEST - constants[-1]]


def spread(count: int, constants: list[int]) -> Iterator[tuple[int, ...]]:
    """How many different values may lie in each room, in all at most `count`."""
    for numbers in itertools.product(*(range(min(room, count) + 1) for room in rooms(constants))):
        if sum(numbers) <= count:
            yield numbers


def type_count(count: int, constants: list[int]) -> int:
    """The number of order types of `count` values among the constants."""
    found = 0
    for numbers in spread(count, constants):
        new = sum(numbers)
        # lists in which each of the new values stands
        found += sum((-1) ** left * comb(new, left) * (len(constants) + new - left) ** count for left in range(new + 1))
    return found


def representatives(count: int, constants: list[int]) -> list[tuple[int, ...]]:
    """A list of values for each order type, as near to the constants as there is room, in lexicographic order."""
    found = []
    for numbers in spread(count, constants):
        if constants:
            new = [constants[0] - number for number in range(1, numbers[0] + 1)]
            above = zip(constants, numbers[1:], strict=True)
            new += [low + number for low, most in above for number in range(1, most + 1)]
        else:
            new = list(range(numbers[0]))
        found += [values for values in itertools.product(constants + new, repeat=count) if set(new) <= set(values)]
    return sorted(found)


# ---- sorts of positions

Position = tuple[str, int, int]
"""A symbol's name and number of arguments, and the argument's place, from 0."""


def placed(atoms: tuple[Pattern, ...]) -> Iterator[tuple[Position, Term]]:
    """Each argument with its position."""
    for atom in atoms:
        for place, term in enumerate(atom.terms):
            yield (atom.name, len(atom.terms), place), term


@dataclass(frozen=True)
class Sort:
    """How the program compares the values that stand at some positions."""

    ordered: bool
    """By their order."""
    unequal: bool
    """By whether they differ."""
    constants: tuple[int, ...]
    """Those that stand there and those that a guard compares with variables of the sort, rising."""

    def count(self, classes: int) -> int:
        """The number of lists of values of `classes` classes."""
        if self.ordered:
            return type_count(classes, list(self.constants))
        return block_count(classes, len(self.constants)) if self.unequal else 1

    def lists(self, classes: int) -> list[tuple[int, ...]]:
        """The lists of values of `classes` classes, which stand for all that there are."""
        if self.ordered:
            return representatives(classes, list(self.constants))
        new = tuple(itertools.islice((value for value in itertools.count() if value not in self.constants), classes))
        return list(blocks(classes, self.constants, new)) if self.unequal else [new]


def block_count(classes: int, choices: int) -> int:
    """In how many ways classes go, one by one, to one of the choices or to a new block, a choice from then on."""
    if not classes:
        return 1
    return choices * block_count(classes - 1, choices) + block_count(classes - 1, choices + 1)


def blocks(classes: int, choices: tuple[int, ...], new: tuple[int, ...]) -> Iterator[tuple[int, ...]]:
    """The same as lists of values. A new block takes the next new value."""
    if not classes:
        yield ()
        return
    for value in (*choices, new[0]):
        chosen = value not in choices
        for rest in blocks(classes - 1, (*choices, value) if chosen else choices, new[1:] if chosen else new):
            yield (value, *rest)


def joined_positions(program: Program) -> dict[Position, Position]:
    """For each position one that stands for all of its sort: the least equivalence that joins all positions of one
    variable of a rule, in heads and body, and those of two variables that a guard compares."""
    sorts = {(name, arity, place): (name, arity, place) for name, arity in program.symbols for place in range(arity)}
    for rule in program.rules:
        stands = [(term, position) for position, term in placed(rule.heads + rule.body) if isinstance(term, str)]
        first = dict(reversed(stands))
        compared = [(first[x], first[y]) for x, _, y in rule.guard if isinstance(x, str) and isinstance(y, str)]
        for one, other in [(first[variable], position) for variable, position in stands] + compared:
            kept, gone = sorts[one], sorts[other]
            sorts = {position: kept if sort == gone else sort for position, sort in sorts.items()}
    return sorts


def comparisons(rule: Rule) -> Iterator[tuple[str, str, Term]]:
    """A variable, a sign, and what the guard compares the variable with: a constant or another variable."""
    for left, sign, right in rule.guard:
        if left != right:
            yield from ((one, sign, other) for one, other in ((left, right), (right, left)) if isinstance(one, str))


def sorts_of(program: Program) -> dict[Position, Sort]:
    stands_for = joined_positions(program)
    constants: dict[Position, set[int]] = {sort: set() for sort in stands_for.values()}
    signs: dict[Position, set[str]] = {sort: set() for sort in stands_for.values()}
    for rule in program.rules:
        terms = [(stands_for[position], term) for position, term in placed(rule.heads + rule.body)]
        of = {term: sort for sort, term in terms if isinstance(term, str)}
        compared = list(comparisons(rule))
        for variable, sign, _ in compared:
            signs[of[variable]].add(sign)
        for sort, term in terms + [(of[variable], other) for variable, _, other in compared]:
            constants[sort] |= {term} if isinstance(term, int) else set()
    made = {
        sort: Sort(bool(signs[sort] - {"=:=", "=\\="}), "=\\=" in signs[sort], tuple(sorted(constants[sort])))
        for sort in constants
    }
    return {position: made[sort] for position, sort in stands_for.items()}


# ---- overlaps and their classes


@dataclass(frozen=True)
class Overlap:
    numbers: tuple[int, int]
    first: Rule
    second: Rule
    matching: tuple[int, ...]

    def unified(self, further: list[tuple[Term, Term]]) -> dict[str, Term] | None:
        """The classes of the equations of the matching and of further ones."""
        equations = matching_equations(self.first, self.second, self.matching)
        return unified(variables(self.first) + variables(self.second), equations + further)

    def __str__(self) -> str:
        return f"rules {self.numbers[0]} {self.numbers[1]}; matching ({','.join(map(str, self.matching))})"


def overlaps(program: Program) -> Iterator[Overlap]:
    for (one, first), (two, second) in itertools.combinations_with_replacement(enumerate(program.rules, 1), 2):
        for matching in matchings(first, second):
            yield Overlap((one, two), renamed(first, "1"), renamed(second, "2"), matching)


# ---- lists of values of the free classes


class JointLists:
    """The order types of all free classes among all constants of the program."""

    def __init__(self, program: Program) -> None:
        self.constants = program.constants()

    def classes(self, overlap: Overlap) -> dict[str, Term] | None:
        return overlap.unified([])

    def count(self, overlap: Overlap, free: list[str]) -> int:
        return type_count(len(free), self.constants)

    def lists(self, overlap: Overlap, free: list[str]) -> list[tuple[int, ...]]:
        return representatives(len(free), self.constants)


class SortedLists:
    """All combinations of one list for each sort; what the guards equate is one class."""

    def __init__(self, program: Program) -> None:
        self.stands_for = joined_positions(program)
        self.sorts = sorts_of(program)

    def classes(self, overlap: Overlap) -> dict[str, Term] | None:
        return overlap.unified(guard_equations(overlap.first) + guard_equations(overlap.second))

    def groups(self, overlap: Overlap, free: list[str]) -> dict[Position, list[int]]:
        """For each sort the places of its classes."""
        heads = placed(overlap.first.heads + overlap.second.heads)
        of = {term: self.stands_for[position] for position, term in heads if isinstance(term, str)}
        return {sort: [place for place, name in enumerate(free) if of[name] == sort] for sort in set(of.values())}

    def count(self, overlap: Overlap, free: list[str]) -> int:
        groups = self.groups(overlap, free)
        return prod(self.sorts[sort].count(len(places)) for sort, places in groups.items())

    def lists(self, overlap: Overlap, free: list[str]) -> list[tuple[int, ...]]:
        groups = self.groups(overlap, free)
        found = []
        for chosen in itertools.product(*(self.sorts[sort].lists(len(places)) for sort, places in groups.items())):
            values: dict[int, int] = {}
            for places, chosen_values in zip(groups.values(), chosen, strict=True):
                values |= zip(places, chosen_values, strict=True)
            found.append(tuple(values[place] for place in range(len(free))))
        return sorted(found)


# ---- the verdict


@dataclass(frozen=True)
class Failing:
    """A case whose sides end in different stores."""

    store: tuple[Pattern, ...]
    left: str
    right: str


def failing(program: Program, overlap: Overlap, at: Valuation) -> Failing | None:
    """The case at this valuation, where it fails."""
    first, second = overlap.first, overlap.second
    unmatched = [head for place, head in enumerate(second.heads, 1) if place not in overlap.matching]
    store = atoms_at(first.heads + tuple(unmatched), at)
    left, right = (store_text(plain_end(program, after(rule, at, store))) for rule in (first, second))
    return None if left == right else Failing(tuple(program.in_order(store)), left, right)


class TooSlow(Exception):
    """There are too many lists of values to be looked at here."""


class TooManyTypes(Exception):
    """The overlap has more lists of values of its free classes than a verdict looks at."""

    def __init__(self, free: int) -> None:
        super().__init__()
        self.free = free


def cases(by: JointLists | SortedLists, overlap: Overlap, most: int) -> Iterator[Valuation]:
    """The valuations of an overlap's cases, in order."""
    classes = by.classes(overlap)
    if classes is None:
        return
    free = [name for name, term in classes.items() if term == name]
    count = by.count(overlap, free)
    if count > MAX_TYPES:
        raise TooManyTypes(len(free))
    if count > most:
        raise TooSlow
    for values in by.lists(overlap, free):
        given = dict(zip(free, values, strict=True))
        at = {name: given[term] if isinstance(term, str) else term for name, term in classes.items()}
        if guard_holds(overlap.first, at) and guard_holds(overlap.second, at):
            yield at


def refusal_or_count(program: Program, by: JointLists | SortedLists, overlap: Overlap, most: int) -> str | int:
    """The line of an overlap that refuses the program, or else the number of its cases."""
    count = 0
    try:
        for at in cases(by, overlap, most):
            count += 1
            found = failing(program, overlap, at)
            if found is not None:
                store = store_text(list(found.store))
                return f"refused 21: {overlap}; store {store}; left {found.left}; right {found.right}"
    except TooManyTypes as fault:
        return f"refused 22: {overlap}; classes {fault.free}"
    return count


def size(program: Program, case: Failing) -> tuple[int, int, list[tuple[int, tuple[Term, ...]]]]:
    """The number of atoms of its store, then that of different values, then the atoms in order."""
    places = list(program.symbols)
    values = {value for atom in case.store for value in atom.terms}
    atoms = [(places.index((atom.name, len(atom.terms))), atom.terms) for atom in case.store]
    return len(atoms), len(values), atoms


def smallest_failing(program: Program, most: int) -> tuple[Failing, Failing] | None:
    """Of the first overlap with a failing joint case the first one; and of all overlaps the failing one with the
    smallest store. None where there is no such overlap."""
    by = JointLists(program)
    of_overlaps = (
        [case for at in cases(by, overlap, most) if (case := failing(program, overlap, at)) is not None]
        for overlap in overlaps(program)
    )
    found = [case for failing_cases in of_overlaps for case in failing_cases]
    return (found[0], min(found, key=lambda case: size(program, case))) if found else None


def is_at_rest(program: Program, store: list[Pattern]) -> bool:
    return next(steps(program, store), None) is None


def verdict(program: Program, most: int, wide: bool = False) -> str:
    """The line of `chrrep check`, or of `chrrep check --wide`. `TooSlow` is raised where an overlap has more lists of
    values than most, but not too many."""
    for number, rule in enumerate(program.rules, 1):
        before, behind = program.weight(rule.removed), program.weight(rule.body)
        if before <= behind:
            return f"refused 20: rule {number}; before {before}; after {behind}"
    by: JointLists | SortedLists = SortedLists(program) if wide else JointLists(program)
    count = 0
    for overlap in overlaps(program):
        found = refusal_or_count(program, by, overlap, most)
        if isinstance(found, str):
            return found
        count += found
    return f"accepted: rules {len(program.rules)}, cases {count}"
