"""Lines as people type them, read word by word, so that what is wrong is told at its place."""

import json
import re
from typing import NamedTuple

WORD = r"[a-z][A-Za-z0-9_]*"
ARGUMENT = rf'-?[0-9]+|{WORD}|"(?:[^"\\]|\\.)*"'
ANY = "_"
"""In a pattern, any argument."""

_LONGEST_SHOWN = 40
_SPACE = re.compile(r"\s*")
_SYMBOL = re.compile(WORD, re.ASCII)
_ENDED = r"(?=\s*(?:[,)]|\Z))"
_ARGUMENT = re.compile(rf"(?:{ARGUMENT}){_ENDED}", re.ASCII)
_ARGUMENT_OR_ANY = re.compile(rf"(?:{ARGUMENT}|{ANY}){_ENDED}", re.ASCII)
_QUOTED = re.compile(r'"(?:[^"\\]|\\.)*"')
_OTHER = re.compile(r"[^,()]*")
_BEGUN = re.compile(r"[^\s,(]*")
_FRACTION = re.compile(r"[-+]?[0-9.,eE+-]+", re.ASCII)


class LineFault(ValueError):
    """What keeps a line from being facts: at a character, which counts from 1, there maybe in an argument of a symbol.
    Nothing was told."""

    def __init__(self, character: int, what: str, symbol: str | None = None, argument: int | None = None) -> None:
        self.character, self.what = character, what
        self.symbol, self.argument = symbol, argument
        where = f", argument {argument} of {symbol}" if symbol else ""
        super().__init__(f"character {character}{where}: {what}")


class Typed(NamedTuple):
    """A fact as it was typed: its symbol, and its arguments as text."""

    symbol: str
    arguments: tuple[str, ...]


def facts_of(line: str) -> list[Typed]:
    """The facts of a line, which stand between commas. Raises `LineFault`."""
    reader = _Reader(line, 0, _ARGUMENT)
    facts = [reader.fact()]
    while reader.takes(","):
        facts.append(reader.fact())
    reader.end()
    return facts


def pattern_in(line: str, at: int) -> Typed:
    """The fact that is asked for from a place of the line on, in which `_` stands for any argument. Raises
    `LineFault`."""
    reader = _Reader(line, at, _ARGUMENT_OR_ANY)
    fact = reader.fact()
    if reader.takes(","):
        raise LineFault(reader.at, "one symbol is asked for, or one pattern")
    reader.end()
    return fact


class _Reader:
    def __init__(self, line: str, at: int, argument: "re.Pattern[str]") -> None:
        self.line, self.at = line, at
        self._argument = argument

    def takes(self, sign: str) -> bool:
        """Goes on behind a sign, and says whether it is there."""
        self._skip()
        is_there = self.line.startswith(sign, self.at)
        self.at += len(sign) * is_there
        return is_there

    def fact(self) -> Typed:
        self._skip()
        found = _SYMBOL.match(self.line, self.at)
        if not found:
            raise self._fault(self._no_fact())
        self.at = found.end()
        arguments: list[str] = []
        if self.takes("("):
            arguments.append(self._read_argument(found[0], 1))
            while not self.takes(")"):
                if not self.takes(","):
                    raise self._fault("the bracket `)` is missing")
                arguments.append(self._read_argument(found[0], len(arguments) + 1))
        return Typed(found[0], tuple(arguments))

    def end(self) -> None:
        """Raises what is wrong with what follows the facts of a line."""
        self._skip()
        rest = self.line[self.at:self.at + _LONGEST_SHOWN]
        if rest.strip() == ".":
            raise self._fault("a fact ends without a full stop: leave it out")
        if rest.startswith(")"):
            raise self._fault("no bracket `(` stands before this one")
        if rest:
            word = (_BEGUN.match(rest) or [""])[0]
            raise self._fault(f"a comma is missing before {_shown(word or rest[0])}, or brackets, as in `a(1,b)`")

    def _read_argument(self, symbol: str, place: int) -> str:
        self._skip()
        found = self._argument.match(self.line, self.at)
        if not found:
            raise LineFault(self.at + 1, self._no_argument(symbol, place), symbol, place)
        if found[0].startswith('"') and not _is_text(found[0]):
            what = f"{_shown(found[0])} is no text: write `\\\\` for a backslash and `\\\"` for double quotes in it"
            raise LineFault(self.at + 1, what, symbol, place)
        self.at = found.end()
        return found[0]

    def _no_fact(self) -> str:
        word = (_BEGUN.match(self.line, self.at) or [""])[0]
        if self.at == len(self.line) or not word:
            return "a fact is missing"
        if word[0].isalpha() or word[0] == "_":
            return f"{_shown(word)} begins no fact: that is a word with a small first letter, as `a(1,b)` or `c`"
        return f"{_shown(word)} begins no fact: facts are as `a(1,b)` or `c`"

    def _no_argument(self, symbol: str, place: int) -> str:
        if self.at == len(self.line):
            return "an argument and the bracket `)` are missing"
        if self.line[self.at] in ",)":
            is_none = place == 1 and self.line[self.at] == ")"
            return f"without arguments leave the brackets out: `{symbol}`" if is_none else "an argument is missing"
        if self.line[self.at] == '"':
            if _QUOTED.match(self.line, self.at):
                return "a comma or `)` is missing behind these double quotes"
            return "these double quotes don't end"
        other = (_OTHER.match(self.line, self.at) or [""])[0]
        if self.line.startswith("(", self.at + len(other)):
            return f"{_shown(other.strip())}(..) is no argument: that is a whole number, or a name"
        return _no_argument(other.strip())

    def _skip(self) -> None:
        found = _SPACE.match(self.line, self.at)
        self.at = found.end() if found else self.at

    def _fault(self, what: str) -> LineFault:
        return LineFault(self.at + 1, what)


def _no_argument(text: str) -> str:
    if text == ANY:
        return "`_` stands for any argument behind `?` alone"
    what = "no whole number" if _FRACTION.fullmatch(text) else "no name without quotes"
    quoted = json.dumps(text.strip("'"), ensure_ascii=False)
    return f"{_shown(text)} is {what}: put it in double quotes, {_shown(quoted)}"


def _is_text(quoted: str) -> bool:
    """Whether what stands in double quotes is text."""
    try:
        json.loads(quoted)
    except ValueError:
        return False
    return True


def _shown(text: str) -> str:
    """Text for a terminal: not long, and nothing that it would obey."""
    short = text if len(text) <= _LONGEST_SHOWN else f"{text[:_LONGEST_SHOWN - 2]}.."
    return "".join(sign if sign.isprintable() else ascii(sign)[1:-1] for sign in short)
