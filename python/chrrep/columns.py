"""The columns of facts, as far as a program's text tells of them: their names, and which rules compare them by order.

    % chr_columns seen(parcel, time, place)

names the three columns of `seen/3`. It is a comment, for the verdict and for Prolog.
"""

import difflib
import re
import sys
import warnings
from collections.abc import Iterable, Iterator, Mapping, Sequence
from functools import cached_property
from typing import TypeVar

from .refusals import UnknownColumn, UnknownSymbol
from .rules import Rule, Symbol, rules_of
from .words import Symbols, symbol_words, symbols_of

T = TypeVar("T")

_NAMING = re.compile(r"[^%]*%+\s*chr_columns\b(.*)", re.ASCII | re.DOTALL)
_NAMED = re.compile(r"\s*([a-z]\w*)\s*\(([^()]*)\)\s*(,|\.?\s*\Z)", re.ASCII)
_NAME = re.compile(r"[a-z]\w{0,31}", re.ASCII)
_LAYOUT = " \t\n\r\f\v"
"""White space of ASCII, as `explain` reads it."""
_ORDER = re.compile("[<>]")
_VARIABLE = re.compile(r"\b(?:[A-Z]|_\w)\w*", re.ASCII)
_COLUMN = "that is a word of at most 32 letters, digits and `_`, with a small letter first"
_MOST_FAULTS = 20
_LONGEST_SHOWN = 40


class ColumnsWarning(UserWarning):
    """A comment `% chr_columns ..` names no columns, or not as the program has them. It counts for nothing then."""


class OrderWarning(UserWarning):
    """A name was told where a rule compares numbers by their order."""


class Columns:
    """What an accepted program's text tells of columns."""

    def __init__(self, program: bytes) -> None:
        self._text = program.decode(errors="replace")
        self.symbols: Symbols = symbols_of(program)
        self.named: dict[Symbol, tuple[str, ...]] = {}
        """The names of the columns of a symbol, where they are declared."""
        self.faults: list[str] = []
        """What is wrong with declarations of names."""
        for number, line in enumerate(self._text.split("\n"), 1):
            if naming := _NAMING.match(line):
                self.faults += [f"line {number}: {fault}" for fault in self._name_all(naming[1])]
        del self.faults[_MOST_FAULTS:]

    @cached_property
    def by_order(self) -> dict[Symbol, dict[int, str]]:
        """Of a symbol's arguments, from 1, those that a rule compares by order, with that rule."""
        found: dict[Symbol, dict[int, str]] = {}
        for number, rule in enumerate(self._rules, 1):
            said, variables = f"rule {number}" + (f" ({rule.name})" if rule.name else ""), _compared_in(rule)
            for name, arguments in (*rule.kept, *rule.taken):
                for place, argument in enumerate(arguments, 1):
                    if argument in variables:
                        found.setdefault((name, len(arguments)), {}).setdefault(place, said)
        return found

    def headings(self, symbol: Symbol) -> tuple[str, ...]:
        """Over each column its name, or that of the variable that all rules have there, or nothing."""
        return self.named.get(symbol) or self._variables.get(symbol) or ("",) * symbol[1]

    def argument(self, name: str, arguments: int | None, place: int) -> str:
        """What an argument is called: `argument 2 (time)`."""
        return called(place, self.named_in(name, arguments))

    def named_in(self, name: str, arguments: int | None) -> tuple[str, ...]:
        """The names of the columns of a symbol; where the number of arguments isn't known, if there is only one."""
        all_ = [arguments] if arguments is not None else self.symbols.get(name, [])
        return self.named.get((name, all_[0]), ()) if len(all_) == 1 else ()

    def patterns(self, name: str, values: Mapping[str, T]) -> list[tuple[tuple[str, ...], list[T | None]]]:
        """The names of the columns of a symbol, and the pattern that has these values under them; for each number of
        arguments by which all of them are known. Raises `UnknownColumn`."""
        if name not in self.symbols:
            raise UnknownSymbol(symbol_words(name, len(values), self.symbols))
        known = [names for (symbol, _), names in self.named.items() if symbol == name]
        found = [names for names in known if values.keys() <= set(names)]
        if not found:
            raise UnknownColumn(_column_words(name, [*values], known))
        return [(names, [values.get(column) for column in names]) for names in found]

    def first(self) -> Symbol | None:
        """The first symbol that the program declares."""
        return next(((name, arguments[0]) for name, arguments in self.symbols.items()), None)

    @cached_property
    def _rules(self) -> list[Rule]:
        return rules_of(self._text)

    @cached_property
    def _variables(self) -> dict[Symbol, tuple[str, ...]]:
        found: dict[Symbol, list[set[str]]] = {}
        for rule in self._rules:
            for name, arguments in (*rule.kept, *rule.taken, *rule.body):
                places = found.setdefault((name, len(arguments)), [set() for _ in arguments])
                for variables, argument in zip(places, arguments):
                    if _VARIABLE.fullmatch(argument) and not argument.startswith("_"):
                        variables.add(argument)
        return {
            symbol: tuple(variables.pop() if len(variables) == 1 else "" for variables in places)
            for symbol, places in found.items()
        }

    def _name_all(self, text: str) -> Iterator[str]:
        """Takes in the names of a declaration, and gives what is wrong with it."""
        at, more = 0, ","
        while more == ",":
            found = _NAMED.match(text, at)
            if not found:
                yield f"{_shown(text)!r} names no columns: `% chr_columns seen(parcel, time, place)` does"
                return
            yield from self._name(found[1], [name.strip(_LAYOUT) for name in found[2].split(",")])
            at, more = found.end(), found[3]

    def _name(self, symbol: str, names: list[str]) -> Iterator[str]:
        bad = next((name for name in names if not _NAME.fullmatch(name)), None)
        if bad is not None:
            yield f"{_shown(bad)!r} is no name of a column: {_COLUMN}"
        elif len(names) not in self.symbols.get(symbol, []):
            yield symbol_words(symbol, len(names), self.symbols)
        elif len(set(names)) < len(names):
            yield f"two columns of {symbol}/{len(names)} have one name"
        elif (symbol, len(names)) in self.named:
            yield f"the columns of {symbol}/{len(names)} have names already"
        else:
            self.named[symbol, len(names)] = tuple(names)


class Orders:
    """Names that are told where a rule compares numbers by their order, the first one of each column."""

    def __init__(self, columns: Columns) -> None:
        self.columns = columns
        self._left = {(name, arguments + 1): dict(rules) for (name, arguments), rules in columns.by_order.items()}

    def found(self, atoms: Iterable[Sequence[str | int]]) -> Iterator[str]:
        """What is to be said of atoms that are to be told."""
        for atom in atoms if self._left else ():
            rules = self._left.get((str(atom[0]), len(atom)), {})
            for place in [place for place in tuple(rules) if isinstance(atom[place], str)]:
                # another thread may have found it
                if rule := rules.pop(place, None):
                    yield self._words(atom, place, rule)

    def _words(self, atom: Sequence[str | int], place: int, rule: str) -> str:
        argument = self.columns.argument(str(atom[0]), len(atom) - 1, place)
        return (
            f"{rule} compares {argument} of {atom[0]} by order, and {_shown(str(atom[place]))!r} is told there: "
            "names have an order, one at all nodes, that means nothing, so tell numbers where it is to mean something"
        )


def _compared_in(rule: Rule) -> frozenset[str]:
    """The variables that the guard of a rule compares by order."""
    compared = filter(_ORDER.search, rule.guard)
    return frozenset(variable for comparison in compared for variable in _VARIABLE.findall(comparison))


def _column_words(name: str, columns: list[str], known: list[tuple[str, ...]]) -> str:
    """What is wrong with columns that a symbol hasn't."""
    if not known:
        return f"no columns of {name!r} have names: write `% chr_columns {name}(one, two)` into the program"
    column = next((it for it in columns if all(it not in names for names in known)), columns[0])
    near = difflib.get_close_matches(column, [it for names in known for it in names], 1)
    return f"{name!r} has no column {_shown(column)!r}" + (f": is {near[0]!r} meant?" if near else "")


def called(place: int, names: tuple[str, ...]) -> str:
    """An argument by its place, and its name where it has one."""
    return f"argument {place} ({names[place - 1]})" if 0 < place <= len(names) else f"argument {place}"


def _shown(text: str) -> str:
    return text.strip()[:_LONGEST_SHOWN]


def warn(said: str, kind: type[Warning]) -> None:
    """Warns at the line that called this package."""
    level, frame = 2, sys._getframe(1)
    while frame.f_back and frame.f_globals.get("__name__", "").startswith("chrrep."):
        level, frame = level + 1, frame.f_back
    warnings.warn(said, kind, stacklevel=level)
