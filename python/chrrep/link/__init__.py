"""Nodes that share their operations by a log: in a file, in Redis Streams or in PostgreSQL.

The log keeps the operations of a group of nodes and their program. A `Link` reads and appends there; a `Member` is a
node whose operations go through it.

    from chrrep.link import join
    with join("sqlite:///routes.sqlite", program) as member:
        member.tell(("path", 1, 2, 7))
        print(member.show())

`python -m chrrep.link --help` is such a node as a command.
"""

from .faults import (
    Diverged,
    LinkLost,
    LogLost,
    LogUnusable,
    NewerFormat,
    NoDriver,
    NoProgram,
    OriginShared,
    OtherProgram,
    PageUnusable,
    ProgramChanged,
)
from .folder import FolderMember
from .following import Following, Watch
from .log import (
    Count,
    Entry,
    Heard,
    Lease,
    Link,
    Mark,
    Named,
    Position,
    Program,
    Reading,
    Rest,
    SetAside,
    State,
    connect,
)
from .member import Member, join
from .telling import Batch

__all__ = [
    "Batch",
    "Count",
    "Diverged",
    "Entry",
    "FolderMember",
    "Following",
    "Heard",
    "Lease",
    "Link",
    "LinkLost",
    "LogLost",
    "LogUnusable",
    "Mark",
    "Member",
    "Named",
    "NewerFormat",
    "NoDriver",
    "NoProgram",
    "OriginShared",
    "OtherProgram",
    "PageUnusable",
    "Position",
    "Program",
    "ProgramChanged",
    "Reading",
    "Rest",
    "SetAside",
    "State",
    "Watch",
    "connect",
    "join",
]
