"""How much of a log's room operations take.

A node is told 1,000,000 atoms at most, and a store at rest may have more atoms than were told: a rule may leave more
than it takes. So each atom counts as many as the rules can make of it. Then no step makes a store count for more, and
whatever is at rest of operations has no more atoms than these count for.
"""

import re
from collections import Counter
from collections.abc import Iterable, Iterator, Mapping, Sequence
from typing import NamedTuple

from ..rules import Pattern, Rule, Symbol, patterns_of, rules_of, weights_of
from ..texts import TOLD_LIMIT

ROOM_FOR_OTHERS = 100_000
"""Atoms of what a node can be told that members leave free, for what something else writes into the log."""

ROOM = TOLD_LIMIT - ROOM_FOR_OTHERS
"""What the snapshot of a log and the operations beyond it count for, at most."""

_WRITTEN = re.compile(r'\["([a-z]\w*)"([^\[\]]*)\]', re.ASCII)
_DEFAULT_WEIGHT = (1, 0)


class _Exchange(NamedTuple):
    """What a rule takes, and what it leaves in its place."""

    taken: "Counter[Symbol]"
    left: "Counter[Symbol]"

    @classmethod
    def by(cls, rule: Rule) -> "_Exchange":
        return cls(Counter(_symbols_of(rule.taken)), Counter(_symbols_of(rule.body)))

    @property
    def growth(self) -> int:
        return self.left.total() - self.taken.total()


class Counting:
    """Counts what atoms take of the room under an accepted program."""

    def __init__(self, program: bytes) -> None:
        self._shares = _shares_of(program.decode(errors="replace"))

    def of_written(self, operations: Sequence[str]) -> int:
        """What the atoms of operations take, which are written as JSON."""
        text = "".join(operations)
        count = text.count("[") - len(operations)
        if not self._shares:
            return count
        found = ((name, rest.count(",")) for name, rest in _WRITTEN.findall(text))
        return count + self._more(found)

    def of_store(self, store: str) -> int:
        """What a store takes, as it is printed."""
        if store == "true":
            return 0
        count = store.count(", ") + 1
        return count + self._more(_symbols_of(patterns_of(store))) if self._shares else count

    def _more(self, symbols: Iterable[Symbol]) -> int:
        return sum(self._shares.get(symbol, 1) - 1 for symbol in symbols)


def _symbols_of(patterns: Iterable[Pattern]) -> Iterator[Symbol]:
    for name, arguments in patterns:
        yield name, len(arguments)


def _shares_of(program: str) -> dict[Symbol, int]:
    """How many atoms one of a symbol counts for, where that is more than 1."""
    rules = [_Exchange.by(rule) for rule in rules_of(program)]
    if all(rule.growth <= 0 for rule in rules):
        return {}
    weights = _single_weights(weights_of(program), rules)
    most = max(rule.growth for rule in rules)
    symbols = {symbol for rule in rules for symbol in (*rule.taken, *rule.left)}
    shares = {symbol: 1 + most * weights.get(symbol, _DEFAULT_WEIGHT[0]) for symbol in symbols}
    for symbol in sorted(symbols, key=lambda symbol: (shares[symbol], symbol)):
        shares[symbol] = _least_share(symbol, shares, rules)
    return {symbol: share for symbol, share in shares.items() if share > 1}


def _single_weights(declared: Mapping[Symbol, tuple[int, int]], rules: list[_Exchange]) -> dict[Symbol, int]:
    """Weights of one number that each rule lowers: of two the first counts for more than the second can grow."""
    pairs = {symbol: _DEFAULT_WEIGHT for rule in rules for symbol in (*rule.taken, *rule.left)} | dict(declared)
    more = max(_sum(rule.left, pairs, 1) - _sum(rule.taken, pairs, 1) for rule in rules)
    return {symbol: first * (max(more, 0) + 1) + second for symbol, (first, second) in pairs.items()}


def _sum(atoms: "Counter[Symbol]", pairs: Mapping[Symbol, tuple[int, int]], place: int) -> int:
    return sum(count * pairs[symbol][place] for symbol, count in atoms.items())


def _least_share(symbol: Symbol, shares: Mapping[Symbol, int], rules: Iterable[_Exchange]) -> int:
    """The least share of a symbol by which no rule makes a store count for more, where the others keep theirs."""
    least = 1
    for rule in rules:
        net = rule.taken[symbol] - rule.left[symbol]
        if net > 0:
            others = rule.left.keys() | rule.taken.keys()
            lack = sum(shares[other] * (rule.left[other] - rule.taken[other]) for other in others - {symbol})
            least = max(least, -(-lack // net))
    return least
