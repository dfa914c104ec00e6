"""Live nodes of chrrep.

A `Node` is a running `chrrep serve`: it is told operations, shows its store at rest, and exchanges operations with
other nodes.

    from chrrep import Node
    with Node(":- chr_constraint coin/0, note/0.  coin, coin <=> note.", origin=1) as node:
        node.tell(("coin",), ("coin",), ("coin",))
        print(node.show())  # (('coin',), ('note',))

`check` gives the verdict on a program text. A refusal is an exception, named in `chrrep.refusals`. `chrrep.link` has
nodes exchange their operations over an engine. Nothing beside the standard library is needed here.
"""

from .columns import ColumnsWarning, OrderWarning
from .node import ANSWER_SECONDS, Node, check, explain
from .refusals import (
    BadByte,
    BadLine,
    ChrrepError,
    Clash,
    DeclaredTwice,
    Full,
    Limit,
    NodeDied,
    NoReplica,
    NotLowered,
    NumberRange,
    Overlap,
    Propagation,
    Refused,
    RefusedProgram,
    Shape,
    Syntax,
    TextFault,
    TooLong,
    TooManyTypes,
    Unbound,
    Undeclared,
    Unended,
    UnknownColumn,
    UnknownSymbol,
    WeightFault,
    WrongProcess,
)
from .texts import Atom, Change, Id, Operation, ProgramText, Summary, Verdict, atoms_of, pieces, store_text

__all__ = [
    "ANSWER_SECONDS",
    "Atom",
    "BadByte",
    "BadLine",
    "Change",
    "ChrrepError",
    "Clash",
    "ColumnsWarning",
    "DeclaredTwice",
    "Full",
    "Id",
    "Limit",
    "NoReplica",
    "Node",
    "NodeDied",
    "NotLowered",
    "NumberRange",
    "Operation",
    "OrderWarning",
    "Overlap",
    "ProgramText",
    "Propagation",
    "Refused",
    "RefusedProgram",
    "Shape",
    "Summary",
    "Syntax",
    "TextFault",
    "TooLong",
    "TooManyTypes",
    "Unbound",
    "Undeclared",
    "Unended",
    "UnknownColumn",
    "UnknownSymbol",
    "Verdict",
    "WeightFault",
    "WrongProcess",
    "atoms_of",
    "check",
    "explain",
    "pieces",
    "store_text",
]
