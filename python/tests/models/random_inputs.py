"""Inputs made at random: programs, texts that are cut, joined and changed, command lines, summaries and deltas."""

import json
import random
import re
from collections.abc import Callable
from pathlib import Path
from typing import Any

import run_rows as rows
from random_programs import long_program, program, record_program
from slow_reader import Fault, read
from slow_verdict import GREATEST, LEAST, Program

HERE = Path(__file__).resolve().parent
FOLDERS = (HERE.parent / "rows" / "explanations", HERE.parents[2] / "examples")
TEXTS = [path.read_bytes() for folder in FOLDERS for path in sorted(folder.glob("*.chr"))]
TEXTS = [text for text in TEXTS if len(text) < 5_000]
TEXTS += [text.encode() for text, _ in (*rows.FAULTS, *rows.ACCEPTED, *rows.ACCEPTED_TEXTS)]
TEXTS += [text for text, _ in rows.ODD_BYTES]
LONG = "a" * 32
AT_LIMITS = (
    f":- chr_constraint {LONG}/0, b/6. {LONG} @ {LONG}, {LONG} <=> {LONG}.",
    f":- chr_constraint a/1, b/0. :- chr_weight b/0 = 0,1. a({LONG.upper()}) <=> 1 < {LONG.upper()} | b{', b' * 7}.",
    f":- chr_constraint a/0, b/1. a, a \\ a, a <=> true. b(X) <=> X > 1{', X > 1' * 7} | true.",
    f":- chr_constraint {', '.join(f'{letter}/{arity}' for letter in 'abcdefghij' for arity in range(7))[:-30]}.",
    f":- chr_constraint a/0. {'a <=> true. ' * 64}",
    ":- chr_constraint a/1. :- chr_weight a/1 = 1000000,1000000. a(X) <=> X =< 9223372036854775807 | true.",
)
TEXTS += [text.encode() for text in AT_LIMITS * 4]
ACCEPTED = [text for text, _, _ in (*rows.RESTED, *rows.OPERATIONS, *rows.LOWERED_BY_PAIRS)]
ACCEPTED += [text for text, _ in rows.ACCEPTED] + [rows.MINIMUM_TEXT, rows.PATHS_TEXT, rows.ONE_TEXT]

PIECES = (
    "false aa b, a, a(X), true, a b c a(X) a(X,Y) b(1) coin X Y _ _X 0 1 3 -1 007 9223372036854775807"
    " 9223372036854775808 -9223372036854775808"
    " <=> ==> =:= =\\= == \\== =< >= < > = @ \\ | , ( ) / :- . % # ' \" true fail :-chr_constraint chr_weight"
    " use_module(library(chr)) --- 0,1 \x07 é"
).split()
"""What may be put into a text."""

MARKS = (*"[]{},:\"\\ \t\r-.0e", "\\u0061", "\\ud800", "null", "true", "1e400", "1e5", "é", "\x00", "---", '["show",1]')
"""What may be put into a line."""

ORIGINS = (0, 1, 1, 2, 3, 4294967295, 4294967296, -1)
NUMBERS = (0, 1, 2, 3, 4, 5, 6, 18446744073709551614, 18446744073709551615, 18446744073709551616)
VALUES = (0, 1, 1, 2, 3, 5, -1, GREATEST, LEAST, GREATEST + 1)
ODD: tuple[Any, ...] = (1.0, -1, "1", None, True, [], {}, 2**64, "-0", 0.5)


def edited(chance: random.Random, text: bytes, pieces: tuple[str, ...] | list[str]) -> bytes:
    """A part taken out, doubled or moved, or a piece put in."""
    one, other = sorted(chance.choices(range(len(text) + 1), k=2))
    if chance.random() < 0.7:
        other = min(one + chance.randint(0, 4), len(text))
    part, kind = text[one:other], chance.randrange(4)
    if kind == 0:
        return text[:one] + text[other:]
    if kind == 1:
        return text[:other] + part + text[other:]
    if kind == 2:
        place = chance.randint(0, len(text))
        return text[:place] + part + text[place:]
    put = chance.choice(pieces).encode("utf-8", "surrogatepass")
    return text[:one] + chance.choice((b"", b" ")) + put + text[other:]


TOKEN = re.compile(rb"[a-z]\w*|[A-Z_]\w*|-?\d+|[<>=:\\@|]+|.", re.DOTALL)
KINDS = (
    (re.compile(rb"[a-z]"), ("true", "false", "zz", LONG, LONG + "x")),
    (re.compile(rb"[A-Z_]"), ("X", "Y", "_", "Q", LONG.upper(), LONG.upper() + "X")),
    (re.compile(rb"-?\d"), ("0", "1", "1000000", "1000001", "-1", str(GREATEST), str(GREATEST + 1), str(LEAST - 1))),
    (re.compile(rb"[<>=]"), ("<=>", "==>", "<", "=<", "=:=", "==", "\\==", "=")),
)
"""Tokens by how they begin, and others of their kind."""


def retold(chance: random.Random, text: bytes) -> bytes:
    """A token made another of its kind, or an item of a list or a clause doubled."""
    end = chance.choice((b",", b",", b"."))
    items = text.split(end)
    if len(items) > 1 and chance.random() < 0.3:
        place = chance.randrange(len(items) - 1)
        return end.join(items[:place] + [items[place]] * chance.choice((2, 2, 3, 5, 9)) + items[place + 1 :])
    tokens = TOKEN.findall(text)
    for place in chance.sample(range(len(tokens)), min(len(tokens), 9)):
        for start, others in KINDS:
            if start.match(tokens[place]):
                same = [it for it in tokens if start.match(it)]
                tokens[place] = chance.choice((chance.choice(same), chance.choice(others).encode()))
                return b"".join(tokens)
    return text


def changed_text(chance: random.Random) -> bytes:
    """Of texts at hand, or of two of them."""
    text = chance.choice(TEXTS)
    if chance.random() < 0.1:
        other = chance.choice(TEXTS)
        text = text[: chance.randint(0, len(text))] + other[chance.randint(0, len(other)) :]
    for _ in range(chance.choice((0, 1, 1, 1, 2, 3))):
        text = retold(chance, text) if chance.random() < 0.8 else edited(chance, text, PIECES)
    return text


def random_program(chance: random.Random) -> Program:
    made: Callable[[random.Random], Program] = chance.choice((program, program, program, record_program, long_program))
    return made(chance)


class Lines:
    """Lines for a program with `replicas` replicas."""

    def __init__(self, chance: random.Random, symbols: list[tuple[str, int]], replicas: int) -> None:
        self.chance, self.replicas = chance, replicas
        self.symbols = symbols or [("a", 0)]
        self.odd = 0.02 if chance.random() < 0.7 else 0.2

    def at_times(self, value: Any) -> Any:
        """The value, or at times an odd one."""
        return self.chance.choice(ODD) if self.chance.random() < self.odd / 4 else value

    def pick(self, values: tuple[int, ...]) -> Any:
        """One of the first values, or at times any."""
        few = values if self.chance.random() < self.odd else values[:6]
        return self.at_times(self.chance.choice(few))

    def replica(self) -> Any:
        if self.chance.random() < self.odd:
            return self.chance.choice((0, self.replicas + 1, 2**64 - 1, 2**64, -1, 4294967297))
        return self.at_times(self.chance.randint(1, self.replicas))

    def id(self) -> list[Any]:
        return [self.pick(ORIGINS), self.pick(NUMBERS)]

    def atom(self) -> Any:
        name, arity = self.chance.choice(self.symbols)
        if self.chance.random() < self.odd:
            name, arity = self.chance.choice((name, "z", "", "é", "a")), self.chance.randint(0, 7)
        return self.at_times([name, *(self.pick(VALUES) for _ in range(arity))])

    def atoms(self) -> Any:
        count = self.chance.choice((0, 64, 65) if self.chance.random() < self.odd / 4 else (1, 1, 2))
        return self.at_times([self.atom() for _ in range(count)])

    def summary(self) -> Any:
        def part() -> list[Any]:
            ends = [self.pick(NUMBERS), self.pick(NUMBERS)]
            is_whole = all(type(end) is int for end in ends)
            return sorted(ends) if is_whole and self.chance.random() >= self.odd else ends

        def origin() -> list[Any]:
            return [self.pick(ORIGINS), [part() for _ in range(self.chance.randrange(3))]]

        return self.at_times([origin() for _ in range(self.chance.randrange(3))])

    def delta(self) -> Any:
        count = self.chance.choice((0, 1, 1, 2))
        if self.chance.random() < 0.5:
            return self.at_times([[self.id(), self.atoms()] for _ in range(count)])
        groups = [[self.pick(ORIGINS), [[self.pick(NUMBERS), self.atoms()] for _ in range(self.chance.randrange(3))]]]
        return [self.at_times(2), self.at_times(groups * self.chance.choice((0, 1, 1, 1, 2)))]

    def command(self) -> list[Any]:
        verb = self.chance.choice(("tell", "tell", "tell", "show", "show", "sync", "sync", "summary", "lacks", "merge"))
        if verb == "tell":
            return [verb, self.replica(), self.id(), self.atoms()]
        if verb == "sync":
            return [verb, self.replica(), self.replica()]
        if verb == "merge":
            return [verb, self.replica(), self.delta()]
        if verb == "lacks":
            version = self.chance.choice(([], [1], [2], [self.chance.choice((0, 3, 1.0, "1"))]))
            return [verb, self.replica(), self.summary(), *version]
        return [verb, self.replica()]

    def line(self) -> bytes:
        command = self.command()
        if self.chance.random() < self.odd / 4:
            command.insert(self.chance.randint(0, len(command)), self.chance.choice(ODD))
        separators = self.chance.choice(((",", ":"), (", ", ": "), (" ,\t", ":")))
        line = json.dumps(command, separators=separators, ensure_ascii=self.chance.random() < 0.5).encode()
        while self.chance.random() < self.odd:
            line = edited(self.chance, line, MARKS)
        if self.chance.random() < self.odd / 4:
            deep = self.chance.choice((126, 127, 128, 200))
            line = b"[" * deep + line + b"]" * deep
        return line

    def lines(self) -> bytes:
        end = self.chance.choice((b"\n", b"\n", b"\r\n"))
        count = self.chance.randint(0, 14)
        made = [self.line() if self.chance.random() > self.odd / 4 else b" \t" for _ in range(count)]
        return end.join(made) + self.chance.choice((b"", end))


def symbols_of(text: bytes) -> list[tuple[str, int]]:
    try:
        return list(read(text).symbols)
    except Fault:
        return []


def random_text(chance: random.Random) -> bytes:
    kind = chance.random()
    if kind < 0.4:
        return str(random_program(chance)).encode()
    return chance.choice(ACCEPTED).encode() if kind < 0.7 else changed_text(chance)


def random_lines(chance: random.Random, text: bytes, replicas: int) -> bytes:
    """The text, and lines for it after a line `---`."""
    lines = Lines(chance, symbols_of(text), replicas).lines()
    made = text + chance.choice((b"\n---\n", b"\n---\n", b"\n---\r\n")) + lines
    return edited(chance, made, MARKS) if chance.random() < 0.05 else made


def random_input(chance: random.Random, text: bytes, replicas: int) -> bytes:
    """The text alone where it has lines of its own, or with lines for it."""
    if b"---" in text and chance.random() < 0.5:
        return text
    return random_lines(chance, text, replicas)
