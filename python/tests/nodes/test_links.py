"""Members of logs in Redis and PostgreSQL, which these tests start, stop and end."""

import os
import signal
import time
import unittest
from collections.abc import Callable
from contextlib import closing
from unittest.mock import patch

import everything
import leases
import links
import outages
import promises
import psycopg2
from chrrep import Id
from chrrep.link import LinkLost, join
from chrrep.link.postgresql import PostgresLink
from chrrep.names import UnkeptName
from engines import Postgres, Redis, VolatileRedis
from programs import PLAIN


class RedisLinks(everything.Everything, leases.Leases, outages.Outages):
    kind = Redis


class PostgresLinks(everything.Everything, outages.Outages):
    kind = Postgres


class RedisPromises(promises.Promises, promises.Hangs):
    kind = Redis

    def odd_atoms(self) -> list[str | bytes]:
        return [b'[["a",1\xff]]', ""]

    def odd_numbers(self) -> dict[str, str]:
        return {"epoch": "x", "generation": "", "format": "one"}

    def test_a_connection_that_two_threads_end(self) -> None:
        """The one that closes the link, and the one that holds its origin and waits no longer."""
        import redis

        ended: list[redis.Connection] = []
        end = redis.Connection.disconnect

        def fail_first(connection: redis.Connection, *words: object) -> None:
            ended.append(connection)
            if len(ended) == 1:
                raise AttributeError("'NoneType' object has no attribute 'close'")
            end(connection, *words)

        link = self.link()
        link.mark()
        with patch.object(redis.Connection, "disconnect", fail_first):
            link.close()
        self.assertIs(ended[0], ended[1])
        self.assertEqual({connection._sock for connection in ended}, {None})


class PostgresPromises(promises.Promises, promises.Hangs):
    kind = Postgres
    is_made_anew = True

    def odd_logs(self) -> list[str]:
        return ["x" * 56, "log:state"]


class LostRedis(unittest.TestCase):
    def test_a_restart_of_a_server_that_keeps_nothing(self) -> None:
        """It is noticed before anything is acknowledged."""
        engine = VolatileRedis()
        self.addCleanup(engine.close)
        with join(engine.url, PLAIN) as one, join(engine.url) as other:
            one.tell(("a", 1))
            other.follow()
            engine.stop()
            engine.start()
            for member in (one, other):
                with self.assertRaisesRegex(LinkLost, "has lost") as raised:
                    member.tell(("a", 2))
                self.assertEqual((raised.exception.told, raised.exception.unsure), ((), ()))


class PostgresTables(links.Links):
    """What is done to single tables."""

    kind = Postgres
    engine: Postgres

    def test_a_table_that_is_truncated(self) -> None:
        """Also who has told nothing, and who joins, is told of it."""
        told, silent = self.member(PLAIN), self.member()
        told.tell(("a", 1))
        silent.follow()
        self.engine.run(f'TRUNCATE "{self.log}"')
        calls: list[Callable[[], object]] = [
            lambda: told.tell(("a", 2)), lambda: silent.tell(("a", 3)), silent.show, self.member
        ]  # fmt: skip
        for call in calls:
            with self.assertRaisesRegex(LinkLost, "has lost"):
                call()

    def test_a_table_that_is_locked(self) -> None:
        """A tell gives up when it is out of patience, and is not in the log."""
        member = self.member(PLAIN)
        member.tell(("a", 1))
        member.link.patience = 1.0
        with closing(psycopg2.connect(self.engine.url)) as locks, locks.cursor() as cursor:
            cursor.execute(f'LOCK TABLE "{self.log}" IN ACCESS EXCLUSIVE MODE')
            begin = time.monotonic()
            with self.assertRaises(LinkLost):
                member.show()
            with self.assertRaises(LinkLost) as raised:
                member.tell(("a", 2))
            self.assertLess(time.monotonic() - begin, 20.0)
            locks.rollback()
        member.link.patience = 60.0
        self.assertEqual(member.tell(("a", 2), after=raised.exception), Id(member.origin, 2))
        self.assertEqual(member.show(), (("a", 1), ("a", 2)))

    def test_a_connection_that_ends_late(self) -> None:
        """The origin of a link that was closed is free by then."""
        link = self.link()
        assert isinstance(link, PostgresLink) and link._engine._made
        process, close = link._engine._made.get_backend_pid(), link._engine.close

        def stop() -> None:
            os.kill(process, signal.SIGSTOP)
            self.addCleanup(os.kill, process, signal.SIGCONT)
            close()

        with patch.object(link._engine, "close", stop):
            link.close()
        self.assertEqual(self.link().origin, link.origin)

    def test_a_name_with_a_nul(self) -> None:
        member = self.member(PLAIN)
        with self.assertRaisesRegex(UnkeptName, "NUL") as raised:
            member.tell_many([[("a", "x")], [("a", "x\0y")]])
        self.assertEqual((raised.exception.told, raised.exception.unsure), ((), ()))
        self.assertEqual((self.ids(), member.link.names()), ([], []))
        self.assertEqual(member.tell(("a", "x")).number, 1)
