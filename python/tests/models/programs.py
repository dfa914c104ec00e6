"""Programs for the tests, and what `chrrep run` says of them."""

import subprocess
from collections.abc import Iterable

from chrrep import Atom, Operation, atoms_of, pieces
from chrrep.node import program_path
from chrrep.texts import line_of, text_bytes

COINS = ":- chr_constraint coin/0, note/0.\ncoin, coin <=> note.\n"
PATHS = ":- chr_constraint path/3.\nshorter @ path(X,Y,D) \\ path(X,Y,E) <=> D =< E | true.\n"
MARKED = PATHS + ":- chr_constraint mark/1.\n"
"""No rule takes a mark away, so that the store tells which operations it was told, and how often."""
BITS = 31
COUNTED = (
    MARKED
    + f":- chr_constraint {', '.join(f'b{bit}/0' for bit in range(BITS))}.\n"
    + "".join(f"b{bit}, b{bit} <=> b{bit + 1}.\n" for bit in range(BITS - 1))
)
"""The same, and what it is told of `b0` is counted in bits, so that a sum tells how many there were."""

PLAIN = ":- chr_constraint a/1.\n"

REGISTER = """:- chr_constraint reg/4.
later @ reg(K,V,T,N) \\ reg(K,W,U,M) <=> T > U | true.
node  @ reg(K,V,T,N) \\ reg(K,W,T,M) <=> N > M | true.
same  @ reg(K,V,T,N) \\ reg(K,W,T,N) <=> V >= W | true.
"""
"""The last writer of each key: key, value, time, node. There are too many joint cases, and few sorted ones."""

THRONGS = """:- chr_constraint best/6.
best(K,A,B,C,D,E) \\ best(K,F,G,H,I,J) <=> A < F, B < G, C < H, D < I, E =\\= J | true.
"""
"""There are too many sorted cases too."""


def answers(program: str, lines: Iterable[object], *options: str) -> list[str]:
    """What a run with these options writes for the program and these commands."""
    text = text_bytes(program) + b"\n---\n" + b"".join(map(line_of, lines))
    ended = subprocess.run([program_path(), "run", *options], input=text, stdout=subprocess.PIPE, check=True)
    return ended.stdout.decode().splitlines()


def counted(store: Iterable[Atom]) -> int:
    """How many `b0` a store of `COUNTED` was told."""
    return sum(1 << int(str(name)[1:]) for name, *rest in store if not rest)


def store_of(program: str, operations: Iterable[Operation]) -> tuple[Atom, ...]:
    """The store of a run that is told all these operations."""
    tells = [["merge", 1, part] for part in pieces(operations)]
    return atoms_of(answers(program, [*tells, ["show", 1]])[-1])
