"""Members of a log in a file, and what becomes of files."""

import gc
import os
import pty
import re
import shutil
import sqlite3
import subprocess
import sys
import threading
import time
import tomllib
import unittest
from collections.abc import Callable
from contextlib import closing
from pathlib import Path
from tempfile import TemporaryDirectory
from unittest.mock import patch

import chrrep
import everything
import leases
import promises
from chrrep import Id
from chrrep.link import (
    Count,
    Entry,
    Link,
    LinkLost,
    LogUnusable,
    Member,
    NoDriver,
    NoProgram,
    OriginShared,
    OtherProgram,
    Program,
    State,
    connect,
    join,
)
from chrrep.link.__main__ import _folder_beside
from chrrep.link.sqlite import FORMAT
from engines import Embedded, Engine
from kills import PACKAGE, Command
from programs import COINS, MARKED, PATHS, PLAIN, REGISTER


NOBODY = 65_534
REPOSITORY = Path(__file__).resolve().parents[3]
LOGS = shutil.ignore_patterns(".chrrep", "log")


class SqliteLinks(everything.Everything, leases.Leases):
    kind = Embedded


class SqlitePromises(promises.Promises):
    kind = Embedded
    ROUNDS = 1500

    def odd_origins(self) -> list[int]:
        # new files take no entry of others
        return []

    def old_engine(self) -> Engine:
        engine = Embedded()
        self.addCleanup(engine.close)
        return engine


class Files(unittest.TestCase):
    def setUp(self) -> None:
        room = TemporaryDirectory()
        self.addCleanup(room.cleanup)
        self.room = Path(room.name)
        self.path = self.room / "log.sqlite"
        self.url = f"sqlite:///{self.path}"

    def test_addresses(self) -> None:
        for url in ("sqlite:", "sqlite://", "sqlite:///", "sqlite://host/path", "mysql://host", "x", ""):
            with self.subTest(url=url), self.assertRaises(ValueError):
                connect(url)
        before = Path.cwd()
        os.chdir(self.room)
        try:
            with join("sqlite:///here.sqlite", PLAIN) as member:
                os.chdir("/")
                member.tell(("a", 1))
        finally:
            os.chdir(before)
        with join(f"sqlite:///{self.room}/here.sqlite") as member:
            self.assertEqual(member.show(), (("a", 1),))

    def test_what_is_joined_serves_with_and_without_a_block(self) -> None:
        member = join(self.url, PLAIN, origin=1)
        self.assertEqual(member.tell(("a", 1)), Id(1, 1))
        member.close()
        member.close()
        self.assertFalse(Path(f"/proc/{member.pid}").exists())
        with self.assertRaises(LinkLost):
            member.link.newest()
        # its origin was given back
        with join(self.url, origin=1) as again:
            self.assertEqual(again.tell(("a", 2)), Id(1, 2))
        self.assertFalse(Path(f"/proc/{again.pid}").exists())
        dropped = join(self.url, origin=1)
        pid = dropped.pid
        del dropped
        gc.collect()
        self.assertFalse(Path(f"/proc/{pid}").exists())
        with join(self.url, origin=1) as again:
            self.assertEqual(again.show(), (("a", 1), ("a", 2)))

    def test_what_leaves_no_file(self) -> None:
        """A program that is refused, isn't there or isn't brought, before the log has one."""
        rows: list[tuple[type[Exception], Callable[[], object]]] = [
            (chrrep.Syntax, lambda: join(self.url, "a.")),
            (chrrep.TooManyTypes, lambda: join(self.url, REGISTER, wide=False)),
            (FileNotFoundError, lambda: join(self.url, self.room / "missing.chr")),
            (NoProgram, lambda: join(self.url)),
            (chrrep.NodeDied, lambda: join(self.url, PLAIN, timeout=-1.0)),
            (ValueError, lambda: join(self.url, PLAIN, log="")),
        ]
        for kind, call in rows:
            with self.subTest(kind), self.assertRaises(kind):
                call()
            self.assertEqual(list(self.room.iterdir()), [])
        with patch("chrrep.link.replica.Node", wraps=chrrep.Node) as made, join(self.url, PLAIN) as member:
            self.assertEqual((made.call_count, member.tell(("a", 1)).number), (1, 1))

    def test_another_makes_the_file_meanwhile(self) -> None:
        """Who comes first gives the log its program; a node that was made before is used, or ended."""
        with join(self.url, PLAIN) as first, patch("chrrep.link.member._makes_file", return_value=True):
            with patch("chrrep.link.replica.Node", wraps=chrrep.Node) as made, join(self.url, PLAIN) as member:
                self.assertEqual((made.call_count, member.tell(("a", 1)).number), (1, 1))
            with self.assertRaises(OtherProgram), self.assertLogs("chrrep.node", "DEBUG") as logged:
                join(self.url, PATHS)
            self.assertRegex(logged.output[-1], "ended with status 0")
            self.assertEqual(first.show(), (("a", 1),))

    def test_a_string_that_is_the_name_of_a_file(self) -> None:
        said = r"this text looks like the name of a file, which is given as Path\('{}'\)$"
        names = ["cart.chr", "./my cart.chr", "/srv/a/cart.txt", "cart.v2.chr", "caf\u00e9.chr"]
        for name in names:
            calls: list[Callable[[], object]] = [
                lambda: chrrep.check(name), lambda: chrrep.Node(name, 1), lambda: join(self.url, name),
            ]  # fmt: skip
            for call in calls:
                with self.subTest(name), self.assertRaisesRegex(chrrep.RefusedProgram, said.format(re.escape(name))):
                    call()
        with join(self.url, PLAIN):
            with self.assertRaisesRegex(OtherProgram, f"^the log has another program: {said.format('cart.chr')}"):
                join(self.url, "cart.chr")
        for text in ("a.", "a", "coin <=> note.c", ":- chr_constraint a/0.b", "a.\nb.chr", "% a.chr\na", ""):
            try:
                chrrep.check(text)
            except chrrep.RefusedProgram as refusal:
                self.assertNotIn("Path", str(refusal), text)

    def test_a_client_that_is_not_installed(self) -> None:
        rows = [("redis://localhost", "redis", "redis_streams", "redis")]
        rows += [("postgresql://localhost/x", "psycopg2", "postgresql", "postgresql")]
        for url, module, link, extra in rows:
            with patch.dict(sys.modules, {module: None}):
                sys.modules.pop(f"chrrep.link.{link}", None)
                said = f"needs Python's {module}, .* pip install {module}, or .* './python\\[{extra}\\]'$"
                with self.assertRaisesRegex(NoDriver, said) as raised:
                    join(url, PLAIN)
                self.assertIsInstance(raised.exception, ImportError)
            found = tomllib.loads((PACKAGE / "pyproject.toml").read_text())["project"]["optional-dependencies"]
            self.assertTrue(found[extra][0].startswith(module))

    def test_an_engine_that_is_away_is_told_of_at_once(self) -> None:
        """Once, and again when it was there in between."""
        locks = sqlite3.connect(self.path, isolation_level=None, check_same_thread=False)
        with closing(locks), join(self.url, PLAIN, patience=60.0) as member:
            for value in range(2):
                locks.execute("BEGIN IMMEDIATE")
                begin = time.time()
                with self.assertLogs("chrrep.link", "WARNING") as logged:
                    release = threading.Timer(4.0, locks.rollback)
                    release.start()
                    member.tell(("a", value))
                release.join()
                self.assertEqual(len(logged.records), 1)
                said = "the engine doesn't answer, and is asked again for [0-9]+ seconds: .*locked"
                self.assertRegex(logged.output[0], said)
                self.assertLess(logged.records[0].created - begin, 3.0)

    def test_files_that_cannot_be_used(self) -> None:
        damaged, folder = self.room / "damaged", self.room / "folder"
        damaged.write_bytes(b"no log at all, but some text in its place" * 100)
        folder.mkdir()
        for path in (damaged, folder, self.room / "missing" / "log", Path("/proc/log")):
            with self.subTest(path=path), self.assertRaisesRegex(LogUnusable, str(path)):
                connect(f"sqlite:///{path}", patience=0.2)
        self.assertIn(b"no log at all", damaged.read_bytes())

    def test_a_file_that_is_damaged_while_it_is_used(self) -> None:
        with join(self.url, PLAIN) as member:
            member.tell_many([[("a", value)] for value in range(2000)])
        size = self.path.stat().st_size
        with join(self.url) as member:
            with open(self.path, "r+b") as file:
                file.seek(4096)
                file.write(os.urandom(size - 4096))
            with self.assertRaises(LogUnusable):
                for value in range(2000):
                    member.tell(("a", value))
                    with join(self.url):
                        pass

    def test_a_file_that_is_taken_away(self) -> None:
        with join(self.url, PLAIN) as member:
            member.tell(("a", 1))
            self.path.rename(self.room / "elsewhere")
            calls: list[Callable[[], object]] = [member.follow, member.show, lambda: member.tell(("a", 2))]
            for call in calls:
                with self.assertRaisesRegex(LogUnusable, "is gone"):
                    call()
            (self.room / "elsewhere").rename(self.path)
            member.tell(("a", 3))
            self.assertEqual(member.show(), (("a", 1), ("a", 3)))
            self.path.rename(self.room / "elsewhere")
            self.path.touch()
            with self.assertRaisesRegex(LogUnusable, "in the place of"):
                member.tell(("a", 4))

    def test_a_file_that_is_locked(self) -> None:
        locks = sqlite3.connect(self.path, isolation_level=None, check_same_thread=False)
        with closing(locks), join(self.url, PLAIN, patience=0.5) as member:
            member.tell(("a", 1))
            locks.execute("BEGIN IMMEDIATE")
            with self.assertRaisesRegex(LinkLost, "locked"):
                member.tell(("a", 2))
            self.assertEqual(member.show(), (("a", 1),))
            release = threading.Timer(0.2, locks.rollback)
            release.start()
            self.assertEqual(member.tell(("a", 3)).number, 2)
            release.join()
            self.assertEqual(member.show(), (("a", 1), ("a", 3)))

    def test_a_new_file_takes_nothing_of_another_kind(self) -> None:
        with join(self.url, PLAIN) as member:
            member.tell(("a", 1))
            columns = "log, origin, number, atoms, writer"
            rows: list[tuple[object, ...]] = [
                (7, 1, b"[]", "x"), (7, 1, None, "x"), (7, "y", "[]", "x"), ("x", 1, "[]", "x"), (7, 0, "[]", "x"),
                (2**32 - 1, 1, "[]", "x"), (-1, 1, "[]", "x"), (7, 1.5, "[]", "x"), (7, 1, "[]", None),
            ]  # fmt: skip
            with closing(sqlite3.connect(self.path)) as engine:
                for row in rows:
                    with self.subTest(row=row), self.assertRaises(sqlite3.IntegrityError), engine:
                        engine.execute(f"INSERT INTO entries ({columns}) VALUES ('chrrep', ?, ?, ?, ?)", row)
                for field in ("epoch", "generation", "room", "format"):
                    with self.subTest(field=field), self.assertRaises(sqlite3.IntegrityError), engine:
                        engine.execute(f"UPDATE logs SET {field} = 'x'")
            self.assertEqual(member.show(), (("a", 1),))

    def test_what_else_an_older_file_takes(self) -> None:
        """Entries that are no text or no text of Unicode are set aside, and what has no number is damage."""
        engine = Embedded()
        self.addCleanup(engine.close)
        engine.make_old("chrrep", MARKED, "mark(1)")
        with join(engine.url) as member:
            odd: list[tuple[int, object]] = [(3, b'[["mark",9]]'), (4, 7), (5, b"\xff")]
            for number, atoms in odd:
                text = "CAST(? AS TEXT)" if number == 5 else "?"
                columns = "log, origin, number, atoms, writer"
                engine.run((f"INSERT INTO entries ({columns}) VALUES ('chrrep', 1, ?, {text}, 'x')", (number, atoms)))
            engine.write_entry("chrrep", 2**32 - 1, 1, '[["mark",10]]')
            engine.write_entry("chrrep", 7, 1, '[["mark",11]]')
            with self.assertLogs("chrrep.link", "WARNING"):
                self.assertEqual(member.show(), (("mark", 1), ("mark", 7), ("mark", 11)))
            self.assertEqual((member.refused, len(member.link.refused())), (4, 4))
        engine.run(("INSERT INTO entries VALUES ('chrrep', 'x', 'y', '[]', 'x', 1)", ()))
        with self.assertRaisesRegex(LogUnusable, "damaged"), join(engine.url):
            pass

    def test_a_file_of_the_format_before(self) -> None:
        """It is changed in place, and a log in it keeps its id, its room and its names."""
        engine = Embedded()
        self.addCleanup(engine.close)
        engine.make_second("chrrep", MARKED, "mark(1), path(1,2,5)")
        with join(engine.url) as one, join(engine.url, MARKED) as other:
            self.assertEqual((one.link.log_id, one.link.count()), ("x", Count(2, 1, 4)))
            self.assertEqual([named[1:] for named in one.link.names()], [(5, "five")])
            one.tell(("mark", 8))
            for member in (one, other):
                self.assertEqual(member.show(), (("mark", 1), ("mark", 7), ("mark", 8), ("path", 1, 2, "five")))
            self.assertTrue(other.snapshot())
        with join(engine.url) as member:
            self.assertEqual(member.count("mark"), 3)

    def test_operations_that_are_told_at_once_share_rows(self) -> None:
        """They are read from any number on, and those that a snapshot stands for are cut from them."""
        with join(self.url, MARKED) as member:
            member.tell_many([[("mark", value)] for value in range(2500)])
            writer, ask = member.link.writer, getattr(member.link, "_ask")
            count, rows = ask("SELECT sum(count), count(*) FROM entries")[0]
            self.assertEqual((count, rows < 10), (2500, True))
            for number in (0, 1, 499, 999, 1000, 1500, 2499, 2500):
                entries = member.link.read({1: number}).entries
                wanted = range(number + 1, min(2500, number + 1000) + 1)
                self.assertEqual(entries, [Entry(Id(1, at), f'[["mark",{at - 1}]]', writer) for at in wanted])
            program = Program(MARKED.encode())
            for generation, end in enumerate((700, 701, 1000, 2500), 1):
                self.assertTrue(member.link.keep(State(1, program, generation, {1: end}, "true")))
                self.assertEqual(member.link.read({}).entries[0].id, Id(1, end))
            self.assertEqual(ask("SELECT number, count FROM entries"), [(2500, 1)])

    def test_operations_that_are_told_at_once_and_fit_no_line(self) -> None:
        """The node is sent them in parts, each once."""
        with join(self.url, MARKED) as member:
            told = [[("mark", 10**18 + 64 * at + more) for more in range(64)] for at in range(1000)]
            self.assertGreater(len(str(told)), 1_048_576)
            ids = member.tell_many(told)
            ids.append(member.tell(("mark", 1)))
            self.assertEqual(ids, [Id(1, number) for number in range(1, 1002)])
            shown = member.show()
            self.assertEqual((len(shown), len(set(shown))), (64_001, 64_001))
        with join(self.url) as member:
            self.assertEqual(member.show(), shown)

    def test_a_row_that_is_damaged(self) -> None:
        with join(self.url, MARKED) as member:
            member.tell_many([[("mark", value)] for value in range(20)])
            member.link._ask("UPDATE entries SET count = 19")  # type: ignore[attr-defined]
            with self.assertRaisesRegex(LogUnusable, "damaged: .*a row has 20 operations, and not 19"), join(self.url):
                pass

    def test_a_tell_costs_no_more_where_the_snapshot_is_large(self) -> None:
        def seconds(member: Member) -> float:
            begin = time.thread_time()
            for value in range(300):
                member.tell(("mark", -value))
            return time.thread_time() - begin

        with join(self.url, MARKED) as member:
            before = seconds(member)
            for first in range(0, 60_000, 5000):
                member.tell_many([[("mark", 10**15 + first + value)] for value in range(5000)])
            self.assertTrue(member.snapshot())
            self.assertLess(seconds(member), 5 * before)

    def test_a_file_that_is_held_longer_than_a_lease(self) -> None:
        """The live node keeps its origin, also where somebody asks for just that as soon as the file is free."""
        engine = Embedded()
        self.addCleanup(engine.close)
        joined: list[object] = []

        def ask() -> None:
            try:
                with connect(engine.url, 4, patience=60.0):
                    joined.append(4)
            except OriginShared as fault:
                joined.append(fault)

        with patch.object(Link, "lease_seconds", 1.0), patch("chrrep.link.log._HEARTBEAT", 0.1):
            with join(engine.url, PLAIN, origin=4) as member:
                member.tell(("a", 1))
                with engine.locked():
                    asks = threading.Thread(target=ask)
                    asks.start()
                    time.sleep(2.5)
                asks.join()
                self.assertEqual(member.tell(("a", 2)).origin, 4)
        self.assertEqual([type(found) for found in joined], [OriginShared])

    def test_a_disk_that_is_full(self) -> None:
        with join(self.url, PLAIN) as member:
            engine = member.link._engine  # type: ignore[attr-defined]
            member.tell(("a", 1))
            engine.execute(f"PRAGMA max_page_count = {engine.execute('PRAGMA page_count').fetchone()[0]}")
            with self.assertRaisesRegex(LogUnusable, "full"):
                member.tell_many([[("a", value)] for value in range(2000)])
            self.assertEqual(member.show(), (("a", 1),))
            engine.execute("PRAGMA max_page_count = 100000")
            self.assertEqual(member.tell(("a", 2)).number, 2)
            self.assertEqual(member.show(), (("a", 1), ("a", 2)))

    def test_what_is_acknowledged_is_on_disk(self) -> None:
        with join(self.url, PLAIN) as member:
            for pragma, value in (("synchronous", 2), ("journal_mode", "wal")):
                self.assertEqual(member.link._ask(f"PRAGMA {pragma}"), [(value,)])  # type: ignore[attr-defined]

    def test_a_copy_is_a_log_of_its_own(self) -> None:
        with join(self.url, PLAIN) as member:
            member.tell(("a", 1))
            with closing(sqlite3.connect(self.path)) as source, closing(sqlite3.connect(self.room / "copy")) as copy:
                source.backup(copy)
            member.tell(("a", 2))
        with join(f"sqlite:///{self.room}/copy", PLAIN) as member:
            self.assertEqual(member.show(), (("a", 1),))


class DefaultPlace(unittest.TestCase):
    """The command with a program text alone."""

    def setUp(self) -> None:
        room = TemporaryDirectory()
        self.addCleanup(room.cleanup)
        self.program = Path(room.name) / "routes.chr"
        self.program.write_text(PATHS)

    def run_command(self, *words: str | Path, said: str = "", status: int = 0) -> tuple[str, str]:
        env = {**os.environ, "PYTHONPATH": str(PACKAGE), "PYTHONDONTWRITEBYTECODE": "1"}
        command = [sys.executable, "-m", "chrrep.link", *map(str, words)]
        ended = subprocess.run(command, input=said, capture_output=True, text=True, env=env, timeout=60, check=False)
        self.assertEqual(ended.returncode, status, ended.stderr)
        return ended.stdout, ended.stderr

    def test_a_folder_beside_the_program(self) -> None:
        url = f"dir:///{self.program.parent}/.chrrep/routes"
        out, err = self.run_command("--origin", "7", self.program, said="path(1,2,7), path(1,3,4)\n")
        self.assertRegex(out, r"^told 7:\d+\n$")
        self.assertEqual(err, f"chrrep.link: the folder is {url}, and this node's origin 7\n")
        again = self.run_command(self.program, said="path(1,2,5)\npath(1,2)\npath(1,3,9)\n?")[0]
        *told, shown = again.splitlines()
        self.assertEqual([line.partition(" ")[0] for line in told], ["told", "refused:", "told"])
        self.assertEqual(shown, "path(1,2,5), path(1,3,4)")
        # without a program it is the folder's
        self.assertEqual(self.run_command("--engine", url, said="?"), ("path(1,2,5), path(1,3,4)\n", ""))
        rows = [("--log", "x", "ValueError: a folder has no log 'x'"), ("--origin", "7", "OriginShared: origin 7 ")]
        for option, value, said in rows:
            self.assertIn(said, self.run_command(option, value, self.program, status=3)[1])
        out, err = self.run_command("--upgrade", self.program, status=3)
        self.assertEqual((out, "keeps its program: --upgrade is for logs" in err), ("", True))
        self.program.write_text(COINS)
        out, err = self.run_command(self.program, said="coin\n", status=3)
        self.assertEqual((out, err.count("\n"), err.startswith("chrrep.link: OtherProgram: ")), ("", 1, True))
        self.assertIn("in the folder", err)

    def test_a_log_that_is_there_already(self) -> None:
        url = f"sqlite:///{self.program.parent}/.chrrep/routes.sqlite"
        (self.program.parent / ".chrrep").mkdir()
        told = self.run_command("--engine", url, self.program, said="path(1,2,7), path(1,3,4)\n")
        self.assertEqual(told, ("told 1:1\n", ""))
        again = self.run_command(self.program, said="path(1,2,5)\n?")
        said = f"chrrep.link: the log is {url}, and this node's origin 1\n"
        self.assertEqual(again, ("told 1:2\npath(1,2,5), path(1,3,4)\n", said))
        self.program.write_text(MARKED)
        self.assertRegex(self.run_command("--upgrade", self.program)[0], "^upgraded: rules 1, ")
        self.program.write_text(COINS)
        out, err = self.run_command(self.program, said="coin\n", status=3)
        self.assertEqual((out, err.count("\n"), err.startswith("chrrep.link: OtherProgram: ")), ("", 1, True))

    def test_words_that_are_no_command(self) -> None:
        self.assertIn("--engine URL", self.run_command(status=2)[1])
        self.assertIn("NoProgram", self.run_command("--engine", f"sqlite:///{self.program}.log", status=3)[1])
        self.assertIn("ValueError", self.run_command("--engine", "mysql://x", self.program, status=3)[1])

    def test_what_may_be_typed_is_said_at_a_terminal(self) -> None:
        self.program.write_text(f"% chr_columns path(from, to, length)\n{PATHS}:- chr_constraint coin/0, fare/2.\n")
        env = {**os.environ, "PYTHONPATH": str(PACKAGE), "PYTHONDONTWRITEBYTECODE": "1"}
        ours, terminal = pty.openpty()
        words = [sys.executable, "-m", "chrrep.link", str(self.program)]
        node = subprocess.Popen(words, stdin=terminal, stdout=subprocess.PIPE, stderr=subprocess.PIPE, env=env)
        with node, open(ours, "wb", buffering=0) as types:
            os.close(terminal)
            assert node.stdout and node.stderr
            said = [node.stderr.readline().decode() for _ in range(2)]
            self.assertRegex(said[0], "^chrrep.link: the folder is ")
            wanted = "type path(1,2,3) to tell a fact, ? to see all, help for more"
            self.assertEqual(said[1], f"chrrep.link: {wanted}\n")
            types.write(b"path(1,2,3)\nhelp\npath(1,X,2)\n")
            answers = [node.stdout.readline().decode() for _ in range(8)]
            types.write(b"\x04")
            self.assertEqual((node.wait(60), node.stderr.read()), (0, b""))
        quoted = 'put it in double quotes, "X"'
        self.assertRegex(answers.pop(0), "^told ")
        self.assertEqual("".join(answers), f"""\
path(1,2,3)    tells a fact; several stand between commas
"São Paulo"    within the brackets is a name; so is a word with a small first letter. Else: whole numbers
?              shows all facts
? path         shows those of one symbol
? path(1,_,_)  shows those with these arguments; _ is any
the facts of this program: path(from,to,length), coin, fare/2
refused: character 8, argument 2 (to) of path: X is no name without quotes: {quoted}
""")  # fmt: skip

    def test_what_leaves_no_folder(self) -> None:
        room = self.program.parent
        self.program.write_text("a.")
        self.run_command(self.program, status=1)
        self.run_command(room / "missing.chr", status=3)
        self.run_command("--upgrade", self.program, status=3)
        self.program.write_text(REGISTER)
        self.assertIn("NoProgram", self.run_command("--upgrade", self.program, status=3)[1])
        self.assertEqual([path.name for path in room.iterdir()], ["routes.chr"])
        self.run_command(self.program, said="?")
        self.assertTrue((room / ".chrrep" / "routes" / "owner").exists())

    def test_help_is_a_fact_where_the_program_has_it(self) -> None:
        self.program.write_text(":- chr_constraint help/0.\n")
        self.assertRegex(self.run_command(self.program, said="help\n?")[0], r"^told \d+:\d+\nhelp\n$")
        self.program.with_name("other.chr").write_text(":- chr_constraint help/1.\n")
        out = self.run_command(self.program.with_name("other.chr"), said="help\n")[0]
        self.assertIn("? help(1)    shows those with these arguments", out)

    def is_refused(self, said: str, *words: str | Path) -> None:
        """Whether the command tells nothing, and one sentence of why."""
        out, err = self.run_command(*words, said="path(1,2,3)\n", status=3)
        self.assertEqual((out, err.count("\n")), ("", 1), err)
        self.assertRegex(err, f"^chrrep.link: {said}")

    def test_a_folder_that_is_in_the_way_or_is_missing(self) -> None:
        folder = self.program.parent / ".chrrep"
        folder.write_text("in its way")
        self.is_refused("LogUnusable: the folder for the facts can't be made: .*exists", self.program)
        folder.unlink()
        self.is_refused("FileNotFoundError: .*No such file", folder.with_name("missing.chr"))

    @unittest.skipUnless(os.geteuid() == 0, "who isn't root has no other user's rights")
    def test_a_folder_that_cannot_be_written(self) -> None:
        room = self.program.parent
        room.chmod(0o755)
        log = room / "log.sqlite"
        with join(f"sqlite:///{log}", PLAIN) as member:
            member.tell(("a", 1))
        os.seteuid(NOBODY)
        try:
            with self.assertRaisesRegex(LogUnusable, "the folder for the facts can't be made: .*Permission denied"):
                _folder_beside(self.program)
            for path in (room / "new.sqlite", log):
                with self.assertRaisesRegex(LogUnusable, "(unable to open|readonly) database"):
                    connect(f"sqlite:///{path}", patience=0.2)
        finally:
            os.seteuid(0)
        with join(f"sqlite:///{log}") as member:
            self.assertEqual(member.show(), (("a", 1),))

    def test_files_that_are_no_log_of_this_version(self) -> None:
        engine = Embedded()
        self.addCleanup(engine.close)
        with join(engine.url, PATHS) as member:
            member.tell(("path", 1, 2, 3))
        engine.set_format("chrrep", FORMAT + 1)
        self.is_refused(f"NewerFormat: the log has format {FORMAT + 1}", "--engine", engine.url, self.program)
        engine.set_format("chrrep", FORMAT)
        whole = engine.path.read_bytes()
        damaged = bytearray(whole)
        damaged[:64] = os.urandom(64)
        for content in (bytes(damaged), b"no log " * 2000, whole[:4096] + os.urandom(len(whole) - 4096)):
            engine.path.write_bytes(content)
            self.is_refused("LogUnusable: the log in .* can't be used: ", "--engine", engine.url, self.program)
            self.assertEqual(engine.path.read_bytes()[:64], content[:64])
        engine.path.write_bytes(whole)
        told = self.run_command("--engine", engine.url, self.program, said="?")
        self.assertEqual(told, ("path(1,2,3)\n", ""))


class Example(unittest.TestCase):
    def test_routes_with_nothing_installed(self) -> None:
        """A copy of the folder, beside the repository's tools: two commands, and names of towns."""
        with TemporaryDirectory() as name:
            room = Path(name)
            shutil.copytree(REPOSITORY / "examples" / "routes", room / "examples" / "routes", ignore=LOGS)
            (room / "tools").symlink_to(REPOSITORY / "tools")
            nodes = [self.start(room) for _ in range(2)]
            one, other = nodes
            self.assertRegex(one.ask("path(berlin,paris,1050)") or "", "^told ")
            self.assertEqual(other.ask("?"), "path(berlin,paris,1050)")
            self.assertRegex(other.ask("path(berlin,paris,1040), path(paris,rome,1420)") or "", "^told ")
            shown = set((one.ask("?") or "").split(", "))
            self.assertEqual(shown, {"path(berlin,paris,1040)", "path(paris,rome,1420)"})
            self.assertEqual([node.end()[0] for node in nodes], [0, 0])

    def start(self, room: Path) -> Command:
        node = Command.of([str(room / "examples" / "routes" / "node")])
        self.addCleanup(node.kill)
        self.assertEqual(node.ask("?"), "true")
        return node
