"""The command of a node that is renewed often, and that kills itself in the middle of a step:

    wounded.py STEP COUNT WORD ..       in the STEP of this number, by random delays; the words are the command's

Steps are `append`, `snapshot`, `trim` (a snapshot is there and what it stands for isn't removed yet, or just was),
`renewal`, `upgrade` and `none`. Before it dies it tells the step on standard error.
"""

import os
import random
import signal
import sqlite3
import sys
import threading
from collections.abc import Callable
from pathlib import Path
from typing import Any

if __name__ == "__main__":
    sys.path.insert(0, str(Path(__file__).resolve().parents[2]))

from chrrep.link import Link, Member, __main__, member, replica
from chrrep.link.log import connect
from chrrep.link.replica import Replica

STEPS = ("append", "snapshot", "trim", "renewal", "none")
ROOM = 300
"""Atoms that a node is told before it is renewed, more than are told at once."""
LONGEST_DELAY = 0.004


def die(step: str) -> None:
    os.write(2, f"wounded: {step}\n".encode())
    os.kill(os.getpid(), signal.SIGKILL)


def die_soon(step: str) -> None:
    """Dies while the step goes on, or right after it."""
    threading.Timer(random.random() * LONGEST_DELAY, die, [step]).start()


class Wound:
    """Has a step end the process when it has come for the given number of times."""

    def __init__(self, step: str, count: int) -> None:
        self.step, self.left = step, count

    def is_due(self) -> bool:
        self.left -= 1
        return self.left == 0

    def during(self, kind: Any, name: str) -> None:
        """Dies while this method runs."""
        plain = getattr(kind, name)

        def call(*values: Any, **named: Any) -> Any:
            if self.is_due():
                die_soon(self.step)
            return plain(*values, **named)

        setattr(kind, name, call)

    def trim(self, link: Link) -> None:
        """Dies once a snapshot is put, before or after what it stands for is removed."""
        name = type(link).__name__
        if name == "SqliteLink":
            engine: sqlite3.Connection = link._engine  # type: ignore[attr-defined]
            engine.set_trace_callback(self.die_at_removal)
        elif name == "PostgresLink":
            plain_rows = link._rows  # type: ignore[attr-defined]

            def rows(query: str, **values: Any) -> Any:
                self.die_at_removal(query)
                return plain_rows(query, **values)

            setattr(link, "_rows", rows)
        else:
            plain = link.keep

            def keep(*values: Any) -> bool:
                is_kept = plain(*values)
                if self.is_due():
                    die(self.step)
                return is_kept

            setattr(link, "keep", keep)

    def die_at_removal(self, query: str) -> None:
        removes = query.lstrip().startswith(("DELETE FROM entries", "DELETE FROM {log}"))
        if removes and self.is_due():
            die(self.step)


def renew_often() -> None:
    """Has each node renewed after this number of atoms beyond what it began with."""
    plain = Replica._go_on_from

    def go_on_from(self: Replica, store: str) -> None:
        plain(self, store)
        setattr(replica, "TOLD_LIMIT", self.told + ROOM)

    setattr(Replica, "_go_on_from", go_on_from)
    setattr(replica, "TOLD_LIMIT", ROOM)


def connecting(wound: Wound) -> Callable[..., Link]:
    def connect_wounded(*values: Any, **named: Any) -> Link:
        link = connect(*values, **named)
        if wound.step == "trim":
            wound.trim(link)
        elif wound.step in ("append", "snapshot"):
            wound.during(link, "append" if wound.step == "append" else "keep")
        return link

    return connect_wounded


def main() -> int:
    step, count, *words = sys.argv[1:]
    wound = Wound(step, int(count))
    renew_often()
    # a seal that a dead node has left is waited for
    setattr(member, "SEAL_SECONDS", 1.0)
    setattr(member, "connect", connecting(wound))
    if step == "renewal":
        wound.during(Replica, "_go_on_from")
    if step == "upgrade":
        wound.during(Member, "_go_over")
    return __main__.main(words)


if __name__ == "__main__":
    sys.exit(main())
