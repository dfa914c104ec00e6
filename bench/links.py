#!/usr/bin/env python3
"""Operations a second into the log of an engine, by a member and by the engine's own client.

    tools/python [redis] [psycopg2] -- bench/links.py URL [COUNT]

Tells COUNT operations of one atom each (100,000) in batches of 100, and a tenth of that one by one, to logs of new
names, which stay in the engine; and then a tenth from a member to another that follows. The client appends rows of the
same bytes to a table or a stream of its own, as safe as the engine keeps them, in turns with the member.
"""

import sqlite3
import sys
import threading
import time
from collections import Counter
from collections.abc import Callable, Iterable
from functools import partial

from chrrep.link import Member, connect

PROGRAM = ":- chr_constraint path/3.\nshorter @ path(X,Y,D) \\ path(X,Y,E) <=> D =< E | true.\n"
BATCH = 100
TURNS = 10

Rows = list[tuple[int, str]]


def sqlite_client(url: str, log: str) -> Callable[[Rows], None]:
    engine = sqlite3.connect(url.removeprefix("sqlite:///"), isolation_level=None)
    engine.execute("PRAGMA journal_mode = WAL")
    engine.execute("PRAGMA synchronous = FULL")
    engine.execute(f"CREATE TABLE {log} (number INTEGER PRIMARY KEY, atoms TEXT)")

    def append(rows: Rows) -> None:
        engine.execute("BEGIN IMMEDIATE")
        engine.executemany(f"INSERT INTO {log} VALUES (?, ?)", rows)
        engine.execute("COMMIT")

    return append


def redis_client(url: str, log: str) -> Callable[[Rows], None]:
    import redis

    engine = redis.Redis.from_url(url)

    def append(rows: Rows) -> None:
        if len(rows) == 1:
            engine.xadd(log, {"atoms": rows[0][1]}, id=f"{rows[0][0]}-0")
            return
        with engine.pipeline(transaction=False) as pipeline:
            for number, atoms in rows:
                pipeline.xadd(log, {"atoms": atoms}, id=f"{number}-0")
            pipeline.execute()

    return append


def postgres_client(url: str, log: str) -> Callable[[Rows], None]:
    import psycopg2
    from psycopg2 import extras

    engine = psycopg2.connect(url)
    with engine, engine.cursor() as cursor:
        cursor.execute(f"CREATE TABLE {log} (number bigint PRIMARY KEY, atoms text)")

    def append(rows: Rows) -> None:
        with engine, engine.cursor() as cursor:
            # all rows of a batch in one statement
            extras.execute_values(cursor, f"INSERT INTO {log} VALUES %s", rows, page_size=BATCH)

    return append


CLIENTS = {"sqlite": sqlite_client, "redis": redis_client, "postgresql": postgres_client}


def told(number: int) -> tuple[str | int, ...]:
    return ("path", number % 1000, number % 7, number)


class Rates:
    """Steps that are timed, in turns with others, so that what else the machine does slows all of them alike: by the
    clock, and by the processor's time of this process, which has no engine of its own but SQLite."""

    def __init__(self) -> None:
        self.nanoseconds: Counter[str] = Counter()
        self.processor: Counter[str] = Counter()
        self.operations: Counter[str] = Counter()

    def take(self, name: str, operations: int, steps: Iterable[Callable[[], object]]) -> None:
        begin, processor = time.monotonic_ns(), time.process_time_ns()
        for step in steps:
            step()
        self.nanoseconds[name] += time.monotonic_ns() - begin
        self.processor[name] += time.process_time_ns() - processor
        self.operations[name] += operations

    def say(self, way: str) -> None:
        names = f"client, {way}", f"member, {way}"
        client, member = (1e9 * self.operations[name] / self.nanoseconds[name] for name in names)
        print(f"{way}: client {client:.0f} a second, member {member:.0f}, which is {member / client:.2f} of it")
        client, member = (self.processor[name] / self.operations[name] / 1000 for name in names)
        each = f"client {client:.2f} millionths of a second of a processor, member {member:.2f}"
        print(f"{way}: {each}, so {client / member:.2f} as fast by that")


def compare(url: str, count: int, log: str) -> None:
    """A part of the operations one by one, and ten times as many in batches, by turns."""
    client = CLIENTS[url.partition(":")[0]]
    single, batches = client(url, log + "single"), client(url, log + "batches")
    rates = Rates()
    few, many = count // TURNS // 10, count // TURNS
    with connect(url, log=log + "a") as link, Member(link, PROGRAM) as one:
        with connect(url, log=log + "b") as other, Member(other, PROGRAM) as all_at_once:
            for turn in range(TURNS):
                numbers = range(1 + turn * few, 1 + (turn + 1) * few)
                rows = [[(at, str(told(at)))] for at in numbers]
                rates.take("client, one by one", few, (partial(single, row) for row in rows))
                rates.take("member, one by one", few, (partial(one.tell, told(at)) for at in numbers))
                parts = [range(at, at + BATCH) for at in range(1 + turn * many, 1 + (turn + 1) * many, BATCH)]
                lots = [[(at, str(told(at))) for at in part] for part in parts]
                rates.take(f"client, by {BATCH}", many, (partial(batches, lot) for lot in lots))
                tells = [[[told(at)] for at in part] for part in parts]
                rates.take(f"member, by {BATCH}", many, (partial(all_at_once.tell_many, part) for part in tells))
            # what was told is in the store too: it is no part of the time only if it was done
            begin = time.monotonic()
            shown = [one.show(), all_at_once.show()]
            assert all(shown)
    rates.say("one by one")
    rates.say(f"by {BATCH}")
    print(f"the stores at the end were shown in {time.monotonic() - begin:.3f} s")


def exchange(url: str, count: int, log: str) -> None:
    with connect(url, log=log) as tells, connect(url, log=log) as follows:
        with Member(tells, PROGRAM) as teller, Member(follows) as follower:
            thread = threading.Thread(target=lambda: [teller.tell(told(at)) for at in range(count)])
            begin = time.monotonic()
            thread.start()
            held = 0
            while held < count:
                held += follower.follow(1.0)
            print(f"member to member, one by one: {count / (time.monotonic() - begin):.0f} a second")
            thread.join()
            assert teller.show() == follower.show()


def main() -> None:
    if len(sys.argv) not in (2, 3):
        sys.exit(__doc__)
    url, count = sys.argv[1], int(sys.argv[2]) if len(sys.argv) > 2 else 100_000
    if count % (10 * BATCH * TURNS):
        sys.exit(f"links: COUNT is a multiple of {10 * BATCH * TURNS}")
    log = f"bench{time.time_ns()}"
    compare(url, count, log)
    exchange(url, count // 10, log)


if __name__ == "__main__":
    main()
