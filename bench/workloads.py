#!/usr/bin/env python3
"""Writes facts told to a program with rules, for `chrrep run`, on standard output.

    workloads.py NAME N [--shows K | --reading]

tells N facts, 64 in an operation, and shows the store at the end, or K times in between as well; with `--reading` it
tells them to a program of the same symbols without rules, and shows nothing. The facts are the same in each run. What
stands in brackets are options that `run` has to be given.

"""

import random
import sys
from collections.abc import Callable, Iterator
from dataclasses import dataclass

Fact = tuple[str | int, ...]
VALUES = 10**9
HALVES = 16
ROOM = 1000
"""How many ends the routes have that are shown again and again."""

LEAST = ":- chr_constraint least/1.\nleast(X) \\ least(Y) <=> X =< Y | true.\n"
EQUAL = ":- chr_constraint fact/1.\nfact(X) \\ fact(X) <=> true.\n"
ROUTE = ":- chr_constraint route/3.\nroute(X,Y,D) \\ route(X,Y,E) <=> D =< E | true.\n"
BID = (
    ":- chr_constraint bid/3.\n"
    "bid(L,P,U) \\ bid(L,Q,V) <=> P < Q | true.\n"
    "bid(L,P,U) \\ bid(L,P,V) <=> U =< V | true.\n"
)
TIE = ":- chr_constraint rank/2.\nrank(A,B) \\ rank(C,D) <=> A < C | true.\n"
DOMINATED = ":- chr_constraint dom/3.\ndom(K,X,Y) \\ dom(K,Z,W) <=> X =< Z, Y =< W | true.\n"
SETTING = (
    ":- chr_constraint set/3.\n"
    "set(K,T,V) \\ set(K,S,W) <=> S < T | true.\n"
    "set(K,T,V) \\ set(K,T,W) <=> V =< W | true.\n"
)
REVOKED = (
    ":- chr_constraint fact/2, revoked/1.\n"
    "revoked(X) \\ fact(X,V) <=> true.\n"
    "revoked(X) \\ revoked(X) <=> true.\n"
    "fact(X,V) \\ fact(X,V) <=> true.\n"
)
THREES = ":- chr_constraint a/1, b/1, c/1.\na(X), b(X), c(X) <=> true.\n"
FOURS = ":- chr_constraint a/1, b/1, c/1, d/1.\na(X), b(X), c(X), d(X) <=> true.\n"
PAIRS = ":- chr_constraint debit/1, credit/1.\ndebit(X), credit(X) <=> true.\n"
COIN = ":- chr_constraint coin/0, note/0.\ncoin, coin <=> note.\n"
XOR = ":- chr_constraint xor/1.\nxor(X), xor(X) <=> xor(0).\nxor(1) \\ xor(0) <=> true.\n"
VOTES = (
    ":- chr_constraint votes/2.\n"
    "votes(C,0), votes(C,0) <=> votes(C,1).\n"
    "votes(C,1), votes(C,1) <=> votes(C,2).\n"
)
CASCADE = (
    f":- chr_constraint {', '.join(f'b{k}/0' for k in range(HALVES + 1))}.\n"
    + "".join(f":- chr_weight b{k}/0 = {2 ** (k + 1) - 1}.\n" for k in range(1, HALVES + 1))
    + "".join(f"b{k} <=> b{k - 1}, b{k - 1}.\n" for k in range(1, HALVES + 1))
)
REACH = (
    ":- chr_constraint edge/2, seen/1, unseen/1.\n"
    ":- chr_weight unseen/1 = 2.\n"
    "edge(X,Y), seen(X) \\ unseen(Y) <=> seen(Y).\n"
)
UNEQUAL = ":- chr_constraint keep/2, item/2.\nkeep(K,V) \\ item(K,W) <=> V =\\= W | true.\n"
RECTANGLE = ":- chr_constraint limit/2, point/2.\nlimit(X,Y) \\ point(A,B) <=> A > X, B > Y | true.\n"
BETWEEN = ":- chr_constraint a/2, b/2, c/2.\na(K,X), b(K,Y) \\ c(K,Z) <=> X < Z, Z < Y | true.\n"
NEVER = ":- chr_constraint a/0.\na, a, a <=> 1 > 2 | a, a.\n"
RULES = ":- chr_constraint kind/2.\n" + "".join(f"kind({k},X) \\ kind({k},X) <=> true.\n" for k in range(64))


def root(n: int) -> int:
    return max(1, int(n**0.5))


def some(rng: random.Random) -> int:
    return rng.randrange(VALUES)


def of_root(n: int, rng: random.Random) -> int:
    return rng.randrange(root(n))


def linked(n: int, i: int, edge: Callable[[int], int]) -> Fact:
    """First nodes that are not reached, then an edge to each of them from another one, and last the node 0."""
    if i < n // 2:
        return "unseen", i + 1
    if i == n - 1:
        return "seen", 0
    node = i - n // 2 + 1
    return "edge", edge(node), node


def apart(n: int, i: int, rng: random.Random) -> Fact:
    """Each a is above each b, so that no c is between an a below it and a b above it."""
    kind = "abc"[i % 3]
    value = rng.randrange(VALUES)
    return kind, 1, {"a": VALUES + value, "b": value, "c": 2 * value}[kind]


def one_in_four(n: int, i: int, rng: random.Random) -> Fact:
    if i % 4 == 3:
        return "revoked", rng.randrange(n)
    return "fact", rng.randrange(n), i


@dataclass(frozen=True)
class Workload:
    """What it is, its program, the fact of each place among a number of facts, and how they are told."""

    title: str
    program: str
    fact: Callable[[int, int, random.Random], Fact]
    each: int = 64
    """How many facts are in an operation."""
    becomes: int = 1
    """How many facts each fact becomes by steps; N counts these."""
    replicas: int = 1
    """How many replicas they are told to in turn, which then exchange them twice round a ring."""
    mixed: bool = False
    """They come in no order."""
    shown: bool = False
    """The store is shown after each operation."""
    wide: bool = False

    def options(self) -> list[str]:
        """What `run` has to be given."""
        replicas = ["--replicas", str(self.replicas)] if self.replicas > 1 else []
        return [*replicas, *(["--wide"] if self.wide else [])]


def ring(replicas: int) -> Workload:
    return Workload(
        f"best routes of {replicas} replicas, told one by one, exchanged twice round a ring",
        ROUTE,
        lambda n, i, rng: ("route", rng.randrange(300), rng.randrange(300), some(rng)),
        each=1,
        replicas=replicas,
    )


WORKLOADS = {
    "least": Workload("the least of values in no order", LEAST, lambda n, i, rng: ("least", some(rng))),
    "falling": Workload("the least of values that fall", LEAST, lambda n, i, rng: ("least", n - i)),
    "rising": Workload("the least of values that rise", LEAST, lambda n, i, rng: ("least", i)),
    "equal": Workload("facts that are told twice", EQUAL, lambda n, i, rng: ("fact", i // 2), mixed=True),
    "routes": Workload(
        "best routes over few ends",
        ROUTE,
        lambda n, i, rng: ("route", of_root(root(n), rng), of_root(root(n), rng), some(rng)),
    ),
    "one_key": Workload("best routes between two places", ROUTE, lambda n, i, rng: ("route", 1, 2, some(rng))),
    "many_keys": Workload(
        "best routes, each told four times", ROUTE, lambda n, i, rng: ("route", rng.randrange(n // 4 + 1), 7, some(rng))
    ),
    "all_keys": Workload(
        "routes whose ends all differ, in order", ROUTE, lambda n, i, rng: ("route", i, i + 1, some(rng))
    ),
    "scattered": Workload(
        "routes whose ends all differ, in no order",
        ROUTE,
        lambda n, i, rng: ("route", i // (root(n) + 1), i % (root(n) + 1), some(rng)),
        mixed=True,
    ),
    "bids": Workload(
        "lowest bids, and of equal ones the first",
        BID,
        lambda n, i, rng: ("bid", of_root(n, rng), some(rng), rng.randrange(1000)),
    ),
    "settings": Workload(
        "merged settings: the latest, and of equally late ones the least",
        SETTING,
        lambda n, i, rng: ("set", of_root(n, rng), rng.randrange(1000), some(rng)),
    ),
    "ties": Workload("facts of the first rank, which all are", TIE, lambda n, i, rng: ("rank", 7, some(rng))),
    "dominated": Workload(
        "pairs under many keys, 200 under each, of which those stay that no other beats in both places",
        DOMINATED,
        lambda n, i, rng: ("dom", rng.randrange(n // 200 + 1), some(rng), some(rng)),
        wide=True,
    ),
    "revoked": Workload("facts, of which one in four is revoked", REVOKED, one_in_four),
    "threes": Workload(
        "a rule of three heads, joined by one argument", THREES, lambda n, i, rng: ("abc"[i % 3], of_root(n, rng))
    ),
    "fours": Workload(
        "a rule of four heads, joined by one argument", FOURS, lambda n, i, rng: ("abcd"[i % 4], of_root(n, rng))
    ),
    "pairs": Workload(
        "debits and credits that cancel, all debits first",
        PAIRS,
        lambda n, i, rng: ("debit" if i < n // 2 else "credit", of_root(n, rng)),
    ),
    "coins": Workload("coins, two for a note", COIN, lambda n, i, rng: ("coin",)),
    "xor": Workload("the parity of bits", XOR, lambda n, i, rng: ("xor", rng.randrange(2))),
    "votes": Workload("votes counted by two rules", VOTES, lambda n, i, rng: ("votes", of_root(n, rng), 0)),
    "cascade": Workload(
        f"atoms that become two each, {HALVES} times over, so many in the end",
        CASCADE,
        lambda n, i, rng: (f"b{HALVES}",),
        becomes=2**HALVES,
    ),
    "ring_8": ring(8),
    "ring_16": ring(16),
    "star": Workload(
        "nodes reached from one that links to all others", REACH, lambda n, i, rng: linked(n, i, lambda node: 0)
    ),
    "hub": Workload(
        "the same, where half of the links are of one node",
        REACH,
        lambda n, i, rng: linked(n, i, lambda node: node - 1 if node % 2 else 0),
    ),
    "unequal": Workload(
        "one fact takes all of its key that have another value",
        UNEQUAL,
        lambda n, i, rng: ("item", 0, i + 1) if i < n - 1 else ("keep", 0, 0),
    ),
    "rectangle": Workload(
        "one limit takes the points above it in two columns",
        RECTANGLE,
        lambda n, i, rng: ("point", i * 7919 % n, n - i * 7919 % n) if i < n - 1 else ("limit", n // 2, n // 4),
        wide=True,
    ),
    "between": Workload(
        "values that none of the pairs of one key has between them, in no order", BETWEEN, apart, wide=True
    ),
    "never": Workload("equal facts under a guard that never holds", NEVER, lambda n, i, rng: ("a",)),
    "rules": Workload(
        "64 rules of one symbol, each with a constant of its own",
        RULES,
        lambda n, i, rng: ("kind", i % 64, i * 7919 % (n // 8 + 1)),
    ),
    "shown": Workload(
        f"{ROOM:,} best routes, of which each tell changes one, shown after each",
        ROUTE,
        lambda n, i, rng: ("route", i * 7 % ROOM, 0, n - i),
        each=1,
        shown=True,
    ),
}
SHOW = '["show",1]\n'


def atom(words: Fact) -> str:
    return '["%s"%s]' % (words[0], "".join(f",{value}" for value in words[1:]))


def facts(name: str, count: int) -> list[str]:
    work = WORKLOADS[name]
    rng = random.Random(1)
    told = -(-count // work.becomes)
    atoms = [atom(work.fact(told, i, rng)) for i in range(told)]
    if work.mixed:
        rng.shuffle(atoms)
    return atoms


def tells(name: str, count: int) -> Iterator[str]:
    work, atoms = WORKLOADS[name], facts(name, count)
    for number, start in enumerate(range(0, len(atoms), work.each)):
        place, replica = divmod(number, work.replicas)
        told = ",".join(atoms[start:start + work.each])
        yield f'["tell",{replica + 1},[{replica + 1},{place + 1}],[{told}]]\n'


def lines(name: str, count: int, shows: int) -> Iterator[str]:
    """The program, the operations with a show after each part of them, and exchanges round a ring."""
    work = WORKLOADS[name]
    yield work.program + "---\n"
    operations = list(tells(name, count))
    if work.shown:
        shows = len(operations)
    between = max(1, len(operations) // (shows + 1))
    for number, operation in enumerate(operations, 1):
        yield operation
        if shows and number % between == 0:
            yield SHOW
    if work.replicas > 1:
        for replica in [*range(1, work.replicas + 1)] * 2:
            yield f'["sync",{replica},{replica % work.replicas + 1}]\n'
    yield SHOW


def reading(name: str, count: int) -> Iterator[str]:
    """The same operations, for a program that has no rules."""
    yield WORKLOADS[name].program.splitlines()[0] + "\n---\n"
    yield from tells(name, count)


def usage() -> str:
    options = {name: " ".join(work.options()) for name, work in WORKLOADS.items()}
    behind = {name: f" [{words}]" if words else "" for name, words in options.items()}
    return __doc__ + "".join(f"    {name:10} {work.title}{behind[name]}\n" for name, work in WORKLOADS.items())


def asked(words: list[str]) -> Iterator[str] | None:
    """The lines that these words ask for."""
    if len(words) < 2 or words[0] not in WORKLOADS or not words[1].isdigit():
        return None
    name, count = words[0], int(words[1])
    match words[2:]:
        case []:
            return lines(name, count, 0)
        case ["--reading"]:
            return reading(name, count)
        case ["--shows", shows] if shows.isdigit():
            return lines(name, count, int(shows))
    return None


def main(words: list[str]) -> int:
    told = asked(words)
    if told is None:
        sys.stderr.write(usage())
        return 2
    sys.stdout.writelines(told)
    return 0


if __name__ == "__main__":
    sys.exit(main(sys.argv[1:]))
