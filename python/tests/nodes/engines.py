"""Engines for the tests: a file, and servers on loopback, each with its log in a folder of its own."""

import glob
import json
import os
import pwd
import shutil
import signal
import socket
import sqlite3
import subprocess
import tempfile
import time
from abc import ABC, abstractmethod
from collections.abc import Iterator
from contextlib import closing, contextmanager, suppress
from pathlib import Path
from typing import Any

LOOPBACK = "127.0.0.1"
START_SECONDS = 60.0
STOP_SECONDS = 30.0


def free_port() -> int:
    """A port of loopback on which nothing listens now."""
    with socket.socket() as probe:
        probe.bind((LOOPBACK, 0))
        return int(probe.getsockname()[1])


class Engine(ABC):
    """What keeps logs, and is gone with its folder after `close`."""

    def __init__(self) -> None:
        self.room = Path(tempfile.mkdtemp(prefix="chrrep-engine-"))

    @property
    @abstractmethod
    def url(self) -> str:
        """The address for a link."""

    @abstractmethod
    def write_state(self, log: str, field: str, value: str | int) -> None:
        """Writes into a field of a log's state."""

    def write_id(self, log: str, id: str) -> None:
        """Writes an id into a log, as if it had been drawn before."""
        self.write_state(log, "id", id)

    @abstractmethod
    def write_lease(self, log: str, origin: int, seconds: float) -> None:
        """Has a link that isn't there hold an origin for `seconds` from now on."""

    @abstractmethod
    def write_seal(self, log: str, seconds: float) -> None:
        """Has a link that isn't there have others wait for `seconds` from now on."""

    @abstractmethod
    def write_entry(self, log: str, origin: int, number: int, atoms: str | bytes) -> None:
        """Writes an entry as no link does."""

    @abstractmethod
    def lose(self, log: str) -> None:
        """Loses all that a log has."""

    @abstractmethod
    def lose_entries(self, log: str, origin: int) -> None:
        """Loses the entries of an origin, and nothing else."""

    @abstractmethod
    def make_old(self, log: str, program: str, store: str) -> None:
        """Makes a log of format 1 with a snapshot of one operation of origin 1, one operation after it, `mark(7)`, and
        the name of the number 5."""

    def set_format(self, log: str, format: int) -> None:
        """Writes another format into a log."""
        self.write_state(log, "format", format)

    def close(self) -> None:
        shutil.rmtree(self.room, ignore_errors=True)


class Embedded(Engine):
    """A file of SQLite."""

    @property
    def path(self) -> Path:
        return self.room / "log.sqlite"

    @property
    def url(self) -> str:
        return f"sqlite:///{self.path}"

    @contextmanager
    def locked(self) -> Iterator[None]:
        """A time in which no other writes into the file."""
        with closing(sqlite3.connect(self.path, timeout=START_SECONDS, isolation_level=None)) as engine:
            engine.execute("BEGIN IMMEDIATE")
            try:
                yield
            finally:
                engine.execute("ROLLBACK")

    def run(self, *statements: tuple[str, tuple[object, ...]]) -> None:
        with closing(sqlite3.connect(self.path, timeout=START_SECONDS)) as engine, engine:
            for statement, values in statements:
                engine.execute(statement, values)

    def write_state(self, log: str, field: str, value: str | int) -> None:
        table = "states" if field in ("program", "position", "store") else "logs"
        self.run((f"UPDATE {table} SET {field} = ? WHERE log = ?", (value, log)))

    def write_lease(self, log: str, origin: int, seconds: float) -> None:
        self.run(("INSERT OR REPLACE INTO origins VALUES (?, ?, 0, 'x', ?)", (log, origin, time.time() + seconds)))

    def write_seal(self, log: str, seconds: float) -> None:
        until = time.time() + seconds
        self.run(("UPDATE logs SET sealed_by = 'x', sealed_until = ? WHERE log = ?", (until, log)))

    def write_entry(self, log: str, origin: int, number: int, atoms: str | bytes) -> None:
        columns = "log, origin, number, atoms, writer"
        self.run((f"INSERT INTO entries ({columns}) VALUES (?, ?, ?, ?, 'x')", (log, origin, number, atoms)))

    def lose(self, log: str) -> None:
        tables = ("logs", "states", "entries", "origins", "names")
        self.run(*((f"DELETE FROM {table} WHERE log = ?", (log,)) for table in tables))

    def lose_entries(self, log: str, origin: int) -> None:
        self.run(("DELETE FROM entries WHERE log = ? AND origin = ?", (log, origin)))

    def make_old(self, log: str, program: str, store: str) -> None:
        kept = json.dumps({"wide": False, "text": program})
        with closing(sqlite3.connect(self.path)) as engine, engine:
            engine.executescript(_OLD_TABLES)
            engine.execute("INSERT INTO logs VALUES (?, 1, 1, 1, '', 0.0, '[[1,1]]', ?, ?)", (log, kept, store))
            engine.execute("INSERT INTO origins VALUES (?, 1, 1, 'x', 0.0)", (log,))
            engine.executemany("INSERT INTO entries VALUES (?, 1, ?, ?, 'x')", [
                (log, 1, '[["mark",1]]'), (log, 2, '[["mark",7]]')
            ])  # fmt: skip
            engine.execute("INSERT INTO names VALUES (?, 5, 'five', 1)", (log,))

    def make_second(self, log: str, program: str, store: str) -> None:
        """The same of format 2."""
        self.make_old(log, program, store)
        with closing(sqlite3.connect(self.path)) as engine, engine:
            for column in ("logs ADD COLUMN id TEXT NOT NULL DEFAULT 'x'", "logs ADD COLUMN room INTEGER DEFAULT 4",
                           "logs ADD COLUMN appends INTEGER DEFAULT 2", "logs ADD COLUMN place INTEGER DEFAULT 1",
                           "names ADD COLUMN used INTEGER NOT NULL DEFAULT 0"):  # fmt: skip
                engine.execute(f"ALTER TABLE {column}")
            engine.execute("UPDATE logs SET format = 2")


_OLD_TABLES = """
    CREATE TABLE IF NOT EXISTS logs (
        log TEXT PRIMARY KEY, format INTEGER NOT NULL, epoch INTEGER NOT NULL, generation INTEGER NOT NULL,
        sealed_by TEXT NOT NULL, sealed_until REAL NOT NULL, position TEXT NOT NULL, program TEXT,
        store TEXT NOT NULL) WITHOUT ROWID;
    CREATE TABLE IF NOT EXISTS origins (
        log TEXT, origin INTEGER, allotted INTEGER NOT NULL, writer TEXT NOT NULL, until REAL NOT NULL,
        PRIMARY KEY (log, origin)) WITHOUT ROWID;
    CREATE TABLE IF NOT EXISTS entries (
        log TEXT, origin INTEGER, number INTEGER, atoms TEXT NOT NULL, writer TEXT NOT NULL,
        PRIMARY KEY (log, origin, number)) WITHOUT ROWID;
    CREATE TABLE IF NOT EXISTS names (
        log TEXT, number INTEGER, name TEXT NOT NULL, place INTEGER NOT NULL,
        PRIMARY KEY (log, number), UNIQUE (log, place)) WITHOUT ROWID;"""


class Server(Engine):
    """An engine that can be stopped and started."""

    def __init__(self) -> None:
        super().__init__()
        self.port = free_port()
        self.server: subprocess.Popen[bytes] | None = None
        try:
            self.prepare()
            self.start()
        except BaseException:
            self.close()
            raise

    def prepare(self) -> None:
        """Makes the folder ready for the first start."""

    @abstractmethod
    def words(self) -> list[str]:
        """The server's command, which stays in the foreground."""

    @abstractmethod
    def is_ready(self) -> bool:
        """Whether the server answers."""

    def user(self) -> str | None:
        """Who runs the server, where not the tests' own user."""
        return None

    def start(self) -> None:
        with open(self.room / "messages", "ab") as messages:
            self.server = subprocess.Popen(
                self.words(),
                stdin=subprocess.DEVNULL,
                stdout=messages,
                stderr=messages,
                cwd=self.room,
                user=self.user(),
            )
        end = time.monotonic() + START_SECONDS
        while not self.is_ready():
            if self.server.poll() is not None or time.monotonic() > end:
                raise RuntimeError((self.room / "messages").read_text(errors="replace")[-2000:])
            time.sleep(0.05)

    def processes(self) -> list[int]:
        """The server's processes, which this one has started. Those that have just ended have no children."""
        assert self.server
        found = [self.server.pid]
        for pid in found:
            with suppress(FileNotFoundError, ProcessLookupError):
                found += map(int, Path(f"/proc/{pid}/task/{pid}/children").read_text().split())
        return found

    @contextmanager
    def hanging(self) -> Iterator[None]:
        """A time in which the server takes connections, and does nothing."""
        stopped = self.processes()
        for pid in stopped:
            with suppress(ProcessLookupError):
                os.kill(pid, signal.SIGSTOP)
        try:
            yield
        finally:
            for pid in stopped:
                with suppress(ProcessLookupError):
                    os.kill(pid, signal.SIGCONT)

    def stop(self, by: signal.Signals = signal.SIGTERM) -> None:
        if self.server:
            self.server.send_signal(by)
            try:
                self.server.wait(STOP_SECONDS)
            except subprocess.TimeoutExpired:
                self.server.kill()
                self.server.wait()
            self.server = None

    def close(self) -> None:
        self.stop(signal.SIGKILL)
        super().close()


class Redis(Server):
    """A Redis server, which has each operation on disk before it acknowledges it."""

    keeps = "yes"

    def words(self) -> list[str]:
        settings = {
            "port": self.port,
            "bind": LOOPBACK,
            "dir": self.room,
            "appendonly": self.keeps,
            "appendfsync": "always",
            "save": "",
        }
        return ["redis-server", *(word for name, value in settings.items() for word in (f"--{name}", str(value)))]

    @property
    def url(self) -> str:
        return f"redis://{LOOPBACK}:{self.port}/0"

    def run(self, *words: str | int | bytes | float) -> Any:
        import redis

        with redis.Redis(LOOPBACK, self.port) as engine:
            return engine.execute_command(*words)

    def write_state(self, log: str, field: str, value: str | int) -> None:
        self.run("HSET", f"{log}:state", field, value)

    def write_lease(self, log: str, origin: int, seconds: float) -> None:
        self.run("HSET", f"{log}:leases", origin, f"x {int((time.time() + seconds) * 1000)} 0 1")

    def write_seal(self, log: str, seconds: float) -> None:
        self.run("HSET", f"{log}:state", "sealed_by", "x", "sealed_until", int((time.time() + seconds) * 1000))

    def write_entry(self, log: str, origin: int, number: int, atoms: str | bytes) -> None:
        self.run("XADD", f"{log}:origins", "*", "origin", origin)
        self.run("XADD", f"{log}:{origin}", f"{number}-0", "atoms", atoms, "writer", "x")

    def lose(self, log: str) -> None:
        self.run("FLUSHALL")

    def lose_entries(self, log: str, origin: int) -> None:
        self.run("DEL", f"{log}:{origin}")

    def make_old(self, log: str, program: str, store: str) -> None:
        kept = json.dumps({"wide": False, "text": program})
        numbers = ("format", 1, "epoch", 1, "generation", 1)
        self.run("HSET", f"{log}:state", *numbers, "position", "[[1,1]]", "store", store, "program", kept)
        self.write_entry(log, 1, 1, '[["mark",1]]')
        self.run("XADD", f"{log}:1", "2-0", "atoms", '[["mark",7]]', "writer", "x")
        self.run("SADD", f"{log}:allotted", 1)
        self.run("HSET", f"{log}:names", 5, "five")
        self.run("RPUSH", f"{log}:named", 5)

    def is_ready(self) -> bool:
        import redis

        try:
            with redis.Redis(LOOPBACK, self.port) as engine:
                return bool(engine.ping())
        except redis.exceptions.RedisError:
            return False


class VolatileRedis(Redis):
    """One that keeps nothing on disk."""

    keeps = "no"


_OLD_POSTGRES = """
    CREATE TABLE "LOG" (
        origin bigint, number bigint, writer text NOT NULL, atoms text NOT NULL, PRIMARY KEY (origin, number));
    CREATE TABLE "LOG:state" (
        one boolean PRIMARY KEY CHECK (one), format bigint NOT NULL, epoch bigint NOT NULL, program text,
        generation bigint NOT NULL, position text NOT NULL, store text NOT NULL,
        sealed_by text NOT NULL, sealed_until timestamptz NOT NULL);
    CREATE TABLE "LOG:origins" (origin bigint PRIMARY KEY, allotted boolean NOT NULL);
    CREATE TABLE "LOG:names" (number bigint PRIMARY KEY, name text NOT NULL, place bigint NOT NULL UNIQUE)"""


class Postgres(Server):
    """A PostgreSQL server. It doesn't run as root: then it is the user `postgres`."""

    def user(self) -> str | None:
        return "postgres" if os.geteuid() == 0 else None

    def program(self, name: str) -> str:
        found = sorted(glob.glob(f"/usr/lib/postgresql/*/bin/{name}")) or [name]
        return found[-1]

    def prepare(self) -> None:
        user = self.user()
        if user:
            os.chown(self.room, pwd.getpwnam(user).pw_uid, -1)
        options = ["--pgdata=data", "--username=chrrep", "--auth=trust", "--no-locale", "--encoding=UTF8", "--no-sync"]
        made = subprocess.run(
            [self.program("initdb"), *options],
            cwd=self.room,
            user=user,
            stdout=subprocess.PIPE,
            stderr=subprocess.STDOUT,
            check=False,
        )
        if made.returncode:
            raise RuntimeError(made.stdout.decode(errors="replace"))

    def words(self) -> list[str]:
        settings = {
            "listen_addresses": LOOPBACK,
            "port": self.port,
            "unix_socket_directories": "",
            "max_connections": 60,
            "shared_buffers": "16MB",
        }
        pairs = (word for name, value in settings.items() for word in ("-c", f"{name}={value}"))
        return [self.program("postgres"), "-D", "data", *pairs]

    @property
    def url(self) -> str:
        return f"postgresql://chrrep@{LOOPBACK}:{self.port}/postgres"

    def run(self, statement: str, *values: object) -> None:
        import psycopg2

        with closing(psycopg2.connect(self.url)) as engine, engine, engine.cursor() as cursor:
            cursor.execute(statement, values)

    def write_state(self, log: str, field: str, value: str | int) -> None:
        self.run(f'UPDATE "{log}:state" SET {field} = %s', value)

    def write_id(self, log: str, id: str) -> None:
        super().write_id(log, id)
        self.run(f'UPDATE "{log}" SET atoms = %s WHERE origin = -1', id)

    def write_lease(self, log: str, origin: int, seconds: float) -> None:
        self.run(
            f"INSERT INTO \"{log}:origins\" VALUES (%s, false, 'x', extract(epoch FROM clock_timestamp()) + %s)"
            " ON CONFLICT (origin) DO UPDATE SET writer = EXCLUDED.writer, until = EXCLUDED.until", origin, seconds
        )  # fmt: skip

    def write_seal(self, log: str, seconds: float) -> None:
        until = "clock_timestamp() + %s * interval '1 second'"
        self.run(f"UPDATE \"{log}:state\" SET sealed_by = 'x', sealed_until = {until}", seconds)

    def write_entry(self, log: str, origin: int, number: int, atoms: str | bytes) -> None:
        columns = "origin, number, atoms, writer"
        self.run(f"INSERT INTO \"{log}\" ({columns}) VALUES (%s, %s, %s, 'x')", origin, number, atoms)

    def lose(self, log: str) -> None:
        tables = ("", ":state", ":origins", ":members", ":names")
        self.run(f"TRUNCATE {', '.join(f'{chr(34)}{log}{name}{chr(34)}' for name in tables)}")

    def lose_entries(self, log: str, origin: int) -> None:
        self.run(f'DELETE FROM "{log}" WHERE origin = %s', origin)

    def make_old(self, log: str, program: str, store: str) -> None:
        kept = json.dumps({"wide": False, "text": program})
        self.run(_OLD_POSTGRES.replace("LOG", log))
        self.run(f"INSERT INTO \"{log}:state\" VALUES (true, 1, 1, %s, 1, '[[1,1]]', %s, '', now())", kept, store)
        self.run(f'INSERT INTO "{log}:origins" VALUES (1, true)')
        for number, atoms in ((1, '[["mark",1]]'), (2, '[["mark",7]]')):
            self.write_entry(log, 1, number, atoms)
        self.run(f"INSERT INTO \"{log}:names\" VALUES (5, 'five', 1)")

    def is_ready(self) -> bool:
        import psycopg2

        try:
            psycopg2.connect(self.url, connect_timeout=2).close()
        except psycopg2.OperationalError:
            return False
        return True

    def stop(self, by: signal.Signals = signal.SIGINT) -> None:
        # killed, it would leave processes of its own behind: at once is SIGQUIT
        super().stop(signal.SIGQUIT if by == signal.SIGKILL else signal.SIGINT)
