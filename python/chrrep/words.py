"""What is wrong with operations that a node refuses, in words, where the package can know."""

import difflib
import json
import re
from collections.abc import Callable, Sequence
from typing import NamedTuple

from . import rules
from .refusals import Shape, UnknownSymbol
from .texts import OPERATION_LIMIT

_LEAST, _GREATEST = -(2**63), 2**63 - 1
# a text that is a program has a sign of a clause, or a full stop at its end
_FILE_NAME = re.compile(r"[^\n%<>=@|():\\]*[\w-]\.\w{1,8}")
_SURROGATE = re.compile("[\ud800-\udfff]")

Symbols = dict[str, list[int]]
"""Of each declared name the numbers of arguments that it is declared with."""


def _by_place(name: str, arguments: int, place: int) -> str:
    return f"argument {place}"


class Wanted(NamedTuple):
    """What arguments may be, and what they are called. Whole numbers they may be anyway."""

    called: Callable[[str, int, int], str] = _by_place
    """What an argument of a symbol is called, by its place from 1."""
    takes_names: bool = False
    takes_any: bool = False

    @property
    def said(self) -> str:
        return "and neither a whole number nor a name" if self.takes_names else "and not a whole number"

    def takes(self, argument: object) -> bool:
        # text that can't be a name is told of where its number is made
        return self.takes_names and isinstance(argument, str) or self.takes_any and argument is None


def file_words(program: bytes) -> str | None:
    """What is wrong with a program text that is the name of a file; None where it isn't one."""
    text = program.decode(errors="replace").strip()
    if not _FILE_NAME.fullmatch(text):
        return None
    return f"this text looks like the name of a file, which is given as Path({_cut(repr(text))})"


def symbols_of(program: bytes) -> Symbols:
    """The symbols that an accepted program declares."""
    symbols: Symbols = {}
    for name, arguments in rules.symbols_of(program.decode(errors="replace")):
        symbols.setdefault(name, []).append(arguments)
    return symbols


def shape_fault(atoms: str, wanted: Wanted = Wanted()) -> str | None:
    """What keeps the text of an operation's atoms from being one; None where nothing is found."""
    try:
        found = json.loads(atoms)
    except (ValueError, RecursionError):
        return "the atoms are no JSON"
    if not isinstance(found, list):
        return "the atoms are no list"
    if not 1 <= len(found) <= OPERATION_LIMIT:
        return f"an operation has 1 to {OPERATION_LIMIT} atoms, and this one has {len(found)}"
    return next((fault for fault in (_atom_fault(atom, wanted) for atom in found) if fault), None)


def check_pattern(pattern: Sequence[object], symbols: Symbols, wanted: Wanted) -> None:
    """Raises what a tell would raise of the atom that is asked for, in which None is any argument. The symbol alone
    stands for all of its atoms."""
    if fault := _atom_fault([*pattern], wanted._replace(takes_any=True)):
        raise Shape(fault)
    name, *arguments = pattern
    if name not in symbols or arguments and len(arguments) not in symbols[str(name)]:
        raise UnknownSymbol(symbol_words(str(name), len(arguments), symbols))


def symbol_fault(atoms: str, symbols: Symbols) -> str | None:
    """Which atom of a well-formed operation has no symbol of the program; None where all have one."""
    for name, *arguments in json.loads(atoms):
        if len(arguments) not in symbols.get(name, []):
            return symbol_words(name, len(arguments), symbols)
    return None


def _atom_fault(atom: object, wanted: Wanted) -> str | None:
    if not isinstance(atom, list) or not atom or not isinstance(atom[0], str):
        return f"{_shown(atom)} is no atom, which is a name and its arguments"
    if _SURROGATE.search(atom[0]):
        return f"the name of {_shown(atom)} has a lone surrogate, which no text has"
    for place, argument in enumerate(atom[1:], 1):
        fault = None if wanted.takes(argument) else _argument_fault(argument, wanted)
        if fault:
            return f"{wanted.called(atom[0], len(atom) - 1, place)} of {_shown(atom)} {fault}"
    return None


def _argument_fault(argument: object, wanted: Wanted) -> str | None:
    # a bool is an int of Python
    if type(argument) is not int:
        return f"is {_kind(argument)}, {wanted.said}"
    return None if _LEAST <= argument <= _GREATEST else "does not fit 64 bits"


def symbol_words(name: str, arguments: int, symbols: Symbols) -> str:
    """What is wrong with a symbol that is not declared."""
    if name in symbols:
        declared = " or ".join(map(str, symbols[name]))
        return f"{name!r} is declared with {declared} arguments, and not with {arguments}"
    near = difflib.get_close_matches(name, symbols, 1)
    return f"no symbol {_cut(repr(name))} is declared" + (f": is {near[0]!r} meant?" if near else "")


def _kind(argument: object) -> str:
    kinds = {bool: "a bool", float: "a float", str: "a string", list: "a list", dict: "a dict", type(None): "None"}
    return kinds.get(type(argument), f"a {type(argument).__name__}")


def _shown(atom: object) -> str:
    return _cut(repr(tuple(atom) if isinstance(atom, list) else atom))


def _cut(text: str) -> str:
    return text if len(text) <= 80 else text[:78] + ".."
