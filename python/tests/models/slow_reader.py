"""Program texts as programs, or their first fault, by a plain slow reader of the grammar. Nothing here is shared with
the program that is tested."""

from __future__ import annotations

import re
from collections.abc import Callable
from dataclasses import dataclass, field
from typing import TypeVar

from slow_verdict import GREATEST, LEAST, SIGNS, Pattern, Program, Rule, Term

MAX_TEXT = 65_536
MAX_SYMBOLS = MAX_RULES = 64
MAX_NAME = 32
MAX_ARITY = 6
MAX_HEADS = 4
MAX_ITEMS = 8
MAX_WEIGHT = 1_000_000

RADIX = 10**9
"""A weight of two numbers is one number here, the first times this and the second. No sum of seconds comes near it."""

LAYOUT = b"\t\n\r "
TOKEN = re.compile(
    r"(?P<layout>[\t\n\r ]+)|(?P<name>[a-z]\w*)|(?P<variable>[A-Z_]\w*)|(?P<number>-?[0-9]+)"
    r"|(?P<sign><=>|==>|=:=|=\\=|\\==|==|=<|>=|:-|[<>=@\\|,()/])",
    re.ASCII,
)
RESERVED = ("true", "fail", "false")
SAME_SIGNS = {"==": "=:=", "\\==": "=\\="}

Token = tuple[str, str]
"""Its kind and its text."""

T = TypeVar("T")


class Fault(Exception):
    """The number of a fault, and of its clause."""


class NoForm(Exception):
    pass


def tokens(clause: str) -> list[Token]:
    found, place = [], 0
    while place < len(clause):
        token = TOKEN.match(clause, place)
        if not token:
            raise NoForm
        if token.lastgroup != "layout":
            found.append((str(token.lastgroup), token[0]))
        place = token.end()
    return found


@dataclass
class RawRule:
    name: str | None
    kept: list[Pattern]
    removed: list[Pattern]
    sign: str
    guard: list[tuple[Term, str, Term]]
    body: list[Pattern]


class Parser:
    """Takes the tokens of a clause from the left."""

    def __init__(self, clause: str) -> None:
        self.rest = tokens(clause)

    def peek(self, place: int = 0) -> Token:
        return self.rest[place] if place < len(self.rest) else ("end", "")

    def take(self, kind: str, *texts: str) -> str:
        found = self.peek()
        if found[0] != kind or texts and found[1] not in texts:
            raise NoForm
        del self.rest[0]
        return found[1]

    def has(self, sign: str) -> bool:
        """Takes the sign if it is next."""
        if self.peek() != ("sign", sign):
            return False
        del self.rest[0]
        return True

    def name(self) -> str:
        name = self.take("name")
        if name in RESERVED:
            raise NoForm
        return name

    def digits(self) -> int:
        number = self.take("number")
        if number.startswith("-"):
            raise NoForm
        return int(number)

    def list_of(self, one: Callable[[], T]) -> list[T]:
        found = [one()]
        while self.has(","):
            found.append(one())
        return found

    def symbol(self) -> tuple[str, int]:
        name = self.name()
        self.take("sign", "/")
        return name, self.digits()

    def term(self) -> Term:
        return self.take("variable") if self.peek()[0] == "variable" else int(self.take("number"))

    def atom(self) -> Pattern:
        name = self.name()
        if not self.has("("):
            return Pattern(name, ())
        terms = self.list_of(self.term)
        self.take("sign", ")")
        return Pattern(name, tuple(terms))

    def is_true(self) -> bool:
        if self.peek() != ("name", "true"):
            return False
        del self.rest[0]
        return True

    def comparison(self) -> tuple[Term, str, Term] | None:
        if self.is_true():
            return None
        left = self.term()
        sign = self.take("sign", *SIGNS, *SAME_SIGNS)
        return left, SAME_SIGNS.get(sign, sign), self.term()

    def body_item(self) -> Pattern | None:
        return None if self.is_true() else self.atom()

    def rule(self) -> RawRule:
        name = None
        if self.peek()[0] == "name" and self.peek(1) == ("sign", "@"):
            name = self.name()
            self.take("sign", "@")
        kept: list[Pattern] = []
        removed = self.list_of(self.atom)
        if self.has("\\"):
            kept, removed = removed, self.list_of(self.atom)
        sign = self.take("sign", "<=>") if kept else self.take("sign", "<=>", "==>")
        guard: list[tuple[Term, str, Term]] = []
        if ("sign", "|") in self.rest:
            guard = [it for it in self.list_of(self.comparison) if it]
            self.take("sign", "|")
        body = [it for it in self.list_of(self.body_item) if it]
        return RawRule(name, kept, removed, sign, guard, body)

    def end(self) -> None:
        if self.rest:
            raise NoForm


def flat(rule: RawRule) -> tuple[list[Term], list[Term]]:
    """The terms of the heads, and those of guard and body."""
    heads = [term for atom in rule.kept + rule.removed for term in atom.terms]
    others = [term for left, _, right in rule.guard for term in (left, right)]
    return heads, others + [term for atom in rule.body for term in atom.terms]


def fits(numbers: list[int]) -> bool:
    return all(LEAST <= number <= GREATEST for number in numbers)


@dataclass
class Reader:
    weights: dict[tuple[str, int], int] = field(default_factory=dict)
    weighed: set[tuple[str, int]] = field(default_factory=set)
    rules: list[Rule] = field(default_factory=list)

    def clause(self, text: str) -> int:
        """The least fault of a clause, which is read; 0 where there is none."""
        try:
            parser = Parser(text)
            if parser.peek() != ("sign", ":-"):
                rule = parser.rule()
                parser.end()
                return self.add_rule(rule)
            parser.take("sign", ":-")
            forms = {"use_module": self.module, "chr_constraint": self.declaration, "chr_weight": self.weight}
            return forms[parser.take("name", *forms)](parser)
        except NoForm:
            return 3

    def module(self, parser: Parser) -> int:
        for kind, text in [("sign", "("), ("name", "library"), ("sign", "("), ("name", "chr")] + [("sign", ")")] * 2:
            parser.take(kind, text)
        parser.end()
        return 0

    def declaration(self, parser: Parser) -> int:
        symbols = parser.list_of(parser.symbol)
        parser.end()
        if len(set(symbols)) < len(symbols) or any(symbol in self.weights for symbol in symbols):
            return 6
        too_large = any(len(name) > MAX_NAME or arity > MAX_ARITY for name, arity in symbols)
        if too_large or len(self.weights) + len(symbols) > MAX_SYMBOLS:
            return 7
        self.weights |= {symbol: RADIX for symbol in symbols}
        return 0

    def weight(self, parser: Parser) -> int:
        symbol = parser.symbol()
        parser.take("sign", "=")
        first, second, is_pair = int(parser.take("number")), 0, parser.has(",")
        if is_pair:
            second = int(parser.take("number"))
        parser.end()
        if symbol not in self.weights:
            return 5
        if not fits([first, second]):
            return 9
        in_range = 0 <= first <= MAX_WEIGHT and 0 <= second <= MAX_WEIGHT and (first or second)
        if not in_range or symbol in self.weighed:
            return 10
        self.weighed.add(symbol)
        self.weights[symbol] = first * RADIX + second
        return 0

    def add_rule(self, rule: RawRule) -> int:
        fault = self.rule_fault(rule)
        if not fault:
            fresh = iter(range(1_000))

            def named(atoms: list[Pattern]) -> tuple[Pattern, ...]:
                """Each `_` is a variable of its own."""
                terms = ([f"_ {next(fresh)}" if term == "_" else term for term in atom.terms] for atom in atoms)
                return tuple(Pattern(atom.name, tuple(it)) for atom, it in zip(atoms, terms, strict=True))

            self.rules.append(Rule(named(rule.kept), named(rule.removed), tuple(rule.guard), named(rule.body)))
        return fault

    def rule_fault(self, rule: RawRule) -> int:
        if rule.sign == "==>":
            return 4
        atoms = rule.kept + rule.removed + rule.body
        if any((atom.name, len(atom.terms)) not in self.weights for atom in atoms):
            return 5
        heads, others = flat(rule)
        names = [it for it in (rule.name, *heads, *others) if isinstance(it, str)]
        long_list = len(rule.body) > MAX_ITEMS or len(rule.guard) > MAX_ITEMS
        if long_list or len(rule.kept + rule.removed) > MAX_HEADS or max(map(len, names), default=0) > MAX_NAME:
            return 7
        if len(self.rules) == MAX_RULES:
            return 7
        if any(isinstance(term, str) and (term == "_" or term not in heads) for term in others):
            return 8
        return 0 if fits([term for term in heads + others if isinstance(term, int)]) else 9


def without_comments(text: bytes) -> bytes:
    return re.sub(rb"%[^\n]*", b" ", text)


def is_odd(clause: bytes) -> bool:
    """Whether a byte stands in it that may not stand outside comments."""
    return any(byte not in LAYOUT and not 0x20 <= byte <= 0x7E for byte in clause)


def read(text: bytes) -> Program:
    """Raises `Fault` with the number and the clause, which is 0 for a text that is too long."""
    if len(text) > MAX_TEXT:
        raise Fault(2, 0)
    *clauses, rest = without_comments(text).split(b".")
    reader = Reader()
    for number, clause in enumerate(clauses, 1):
        fault = 1 if is_odd(clause) else reader.clause(clause.decode("ascii"))
        if fault:
            raise Fault(fault, number)
    if rest.strip(LAYOUT):
        raise Fault(1 if is_odd(rest) else 11, len(clauses) + 1)
    return Program(reader.weights, tuple(reader.rules))
