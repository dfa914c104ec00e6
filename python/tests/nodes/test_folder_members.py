"""Members of folders: `join("dir:///PATH")`."""

import asyncio
import os
import queue
import random
import signal
import threading
import time
from collections.abc import Callable
from contextlib import suppress
from typing import Any
from unittest.mock import patch

import chrrep
from chrrep import Atom, ColumnsWarning, Id, NodeDied, OrderWarning, Overlap, UnknownSymbol, WrongProcess
from chrrep.asynchronous import join as join_later
from chrrep.link import FolderMember, LogUnusable, NoProgram, OriginShared, OtherProgram, join
from chrrep.names import NameClash, NameFault, named_atoms_of
from chrrep.process import Process
from folders import COUNTED, KILL_SECONDS, OTHER, SECONDS, TURNED, Folders, bring, counted, number_in
from programs import PATHS, REGISTER


PAUSE_SECONDS = 0.2
"""How long who tells rests at most: a folder has room for 1,000,000 facts, which ten minutes must not fill."""


def interrupted_at(place: int) -> Callable[[Process, float | None], str]:
    """Answers of which that at this place, from 0, is cut off by an interrupt, and so are those of who comes later."""
    answer, left = Process.answer, [place]

    def answer_or_raise(process: Process, end: float | None) -> str:
        left[0] -= 1
        if left[0] < 0:
            raise KeyboardInterrupt
        return answer(process, end)

    return answer_or_raise


class Members(Folders):
    """`join("dir:///PATH")`."""

    def joined(self, program: str | None = COUNTED) -> FolderMember:
        member = join(f"dir:///{self.folder}", program)
        assert isinstance(member, FolderMember)
        self.addCleanup(member.close)
        return member

    def test_a_member_tells_and_shows(self) -> None:
        member = self.joined()
        member.tell(("path", "berlin", "São Paulo", 7), ("b0",))
        ids = member.tell_many([("b0",)] for _ in range(1200))
        self.assertEqual(len({*ids}), 1200)
        self.assertEqual(member.show("path"), (("path", "berlin", "São Paulo", 7),))
        self.assertEqual(member.show("path", "berlin", None, None), member.show("path"))
        self.assertEqual(member.count("path", None, None, 7), 1)
        self.assertEqual(number_in(member.show()), 1201)
        self.assertEqual(self.joined(None).show(), member.show())

    def test_a_member_has_the_calls_of_others(self) -> None:
        program = f"% chr_columns path(from, to, km)\n{PATHS}"
        member, other = self.joined(program), self.joined(None)
        member.tell(("path", "berlin", "paris", 1050), ("path", "oslo", "rome", 7))
        self.assertEqual(other.show_named("path", to="rome"), ({"from": "oslo", "to": "rome", "km": 7},))
        self.assertEqual(other.count("path"), 2)
        self.assertEqual((other.count("path", "oslo", None, None), other.count("path", "rome", None, None)), (1, 0))
        self.assertEqual(set(named_atoms_of(other.show_text())), set(other.show()))
        self.assertEqual(set(other), set(member.show()))
        self.assertEqual((member.verdict.rules, member.verdict.cases, member.program.text), (1, 541, program.encode()))
        self.assertEqual((member.refused, member.rejoin(), member.going_over(lambda: 7)), (0, False, 7))
        (self.folder / "feeds" / "note.txt").write_text("no feed")
        self.assertEqual(member.refused, 1)
        self.assertEqual((other.catch_up(), other.follow()), (1, 0))
        member.tell(("path", "oslo", "rome", 6))
        self.assertEqual(other.follow(SECONDS), 1)
        with self.assertRaises(chrrep.UnknownColumn):
            other.show_named("path", at="rome")
        with self.assertRaisesRegex(UnknownSymbol, "is 'path' meant"):
            other.count("paths")
        with self.assertRaises(UnknownSymbol):
            other.show("path", "oslo")

    def test_what_is_refused_is_not_told(self) -> None:
        member = self.joined(f"% chr_columns path(from, to, km)\n{PATHS}")
        rows: list[tuple[type[Exception], list[Any], str]] = [
            (UnknownSymbol, [("x", "y")], "no symbol 'x'"),
            (UnknownSymbol, [("path", "oslo", 2)], "declared with 3 arguments"),
            (chrrep.Shape, [], "1 to 64 atoms, and this one has 0"),
            (chrrep.Shape, [("path", 1, 2, 3)] * 65, "1 to 64 atoms, and this one has 65"),
            (chrrep.Shape, [("path", 1, True, 3)], r"argument 2 \(to\) of .* is a bool"),
            (chrrep.Shape, [("path", "oslo", 1, 2**63)], r"\(km\) of \('path', 'oslo', 1, .* does not fit 64 bits"),
            (chrrep.Shape, [("path", 1, 2, [1])], "is a list"),
            (chrrep.Shape, ["path"], "is no atom"),
            (chrrep.Shape, [()], "is no atom"),
            (chrrep.Refused, [("path", 1, 2, float("nan"))], ""),
            (TypeError, [("path", 1, 2, object())], ""),
            (NameFault, [("path", 1, "\udc00", 3)], "surrogate"),
        ]
        for kind, atoms, said in rows:
            with self.subTest(atoms=atoms[:1]), self.assertRaisesRegex(kind, said):
                member.tell(*atoms)
        self.assertEqual(member.show(), ())
        self.assertEqual(member.tell(("path", 1, 2, 3)).number % 2**32, 1)

    def test_numbers_of_64_bits_are_right(self) -> None:
        """Those beyond 2^53, too, which not every reader of JSON has: of atoms, and of ids."""
        member = self.joined(PATHS)
        numbers = [2**63 - 1, -(2**63), 2**53 + 1, -(2**53) - 1]
        ids = member.tell_many([[("path", number, 0, number)] for number in numbers])
        self.assertEqual({number for _, number, _, _ in self.joined(None).show()}, set(numbers))
        self.assertEqual(member.show("path", 2**53 + 1, None, None), (("path", 2**53 + 1, 0, 2**53 + 1),))
        self.assertEqual(member.count("path", 2**53, None, None), 0)
        self.assertEqual([id.number - ids[0].number for id in ids], [0, 1, 2, 3])
        # the upper half of a number is drawn for the run
        self.assertGreater(max(self.joined(PATHS).tell(("path", 1, 1, 1)).number for _ in range(9)), 2**53)

    def test_origins(self) -> None:
        url = f"dir:///{self.folder}"
        with join(url, PATHS, origin=7) as member:
            self.assertEqual(member.tell(("path", 1, 2, 3)).origin, 7)
        with self.assertRaisesRegex(OriginShared, "origin 7"):
            join(url, PATHS, origin=7)
        for origin in (-1, 2**32, 2**53 + 1):
            with self.assertRaisesRegex(ValueError, "from 0 to 4294967295"):
                join(url, PATHS, origin=origin)
        with join(url, origin=2**32 - 1) as member:
            self.assertEqual(member.tell(("path", 1, 2, 2)).origin, 2**32 - 1)
        with self.assertRaisesRegex(ValueError, "no log 'x'"):
            join(url, log="x")

    def test_a_program_that_is_judged_by_columns(self) -> None:
        with self.assertRaises(chrrep.TooManyTypes):
            FolderMember(self.folder, REGISTER, wide=False)
        self.assertFalse(self.folder.exists())
        self.assertTrue(self.joined(REGISTER).verdict.is_wide)

    def test_names_at_the_edge(self) -> None:
        with self.assertWarnsRegex(ColumnsWarning, "in vain"):
            member = self.joined(f"% chr_columns road(from, to)\n{PATHS}")
        with self.assertWarnsRegex(OrderWarning, "argument 3 of path by order"):
            member.tell(("path", "a", "", "far"))
        with patch("chrrep.names.number_of", return_value=5):
            member.tell(("path", "one", 2, 3))
            with self.assertRaises(NameClash):
                member.tell(("path", "other", 2, 3))
        self.assertEqual(member.count("path"), 2)

    def test_names_that_are_not_written_through(self) -> None:
        """Of a file of names that was cut, the whole lines count; one that is damaged is told of."""
        member, other = self.joined(PATHS), self.joined(None)
        member.tell(("path", "oslo", "rome", 1))
        (file,) = (self.folder / "names").iterdir()
        whole = file.read_bytes()
        (self.folder / "names" / "cut.names").write_bytes(whole[:-3])
        (self.folder / "names" / "bad.names").write_bytes(b"{]\n7\n" + whole)
        with self.assertLogs("chrrep.link", "WARNING") as logged:
            self.assertEqual(other.show(), (("path", "oslo", "rome", 1),))
        self.assertEqual(len(logged.output), 2)
        fails = OSError(28, "No space left on device")
        with patch("os.fsync", side_effect=fails), self.assertRaisesRegex(LogUnusable, "No space left") as caught:
            member.tell(("path", "bonn", "rome", 1))
        self.assertEqual((caught.exception.told, caught.exception.unsure), ((), ()))
        # it goes on with another file
        member.tell(("path", "bonn", "rome", 1))
        self.assertEqual(len([*(self.folder / "names").iterdir()]), 4)
        self.assertEqual(self.joined(None).count("path", "bonn", "rome", None), 1)

    def test_what_is_refused_is_raised(self) -> None:
        member = self.joined()
        with self.assertRaises(UnknownSymbol):
            member.tell(("nobody",))
        with self.assertRaises(UnknownSymbol) as caught:
            member.tell_many([[("b0",)], [("nobody",)], [("b0",)]])
        self.assertEqual((len(caught.exception.told), member.show()), (1, (("b0",),)))

    def test_what_can_not_be_joined(self) -> None:
        with self.assertRaises(NoProgram):
            self.joined(None)
        with self.assertRaises(Overlap):
            self.joined(TURNED)
        self.joined()
        with self.assertRaises(OtherProgram):
            self.joined(OTHER)

    def test_a_fork_leaves_the_node_alone(self) -> None:
        member = self.joined()
        child = os.fork()
        if not child:
            try:
                member.tell(("b0",))
            except WrongProcess:
                member.close()
                os._exit(7)
            os._exit(1)
        self.assertEqual(os.waitstatus_to_exitcode(os.waitpid(child, 0)[1]), 7)
        member.tell(("b0",))
        self.assertEqual(member.show(), (("b0",),))

    def test_a_tell_that_is_cut_off_goes_on(self) -> None:
        """By an interrupt at each answer: what is told then is known, and told on exactly once."""
        member = self.joined()
        told = 0
        for place in range(3):
            with self.subTest(place=place), self.assertRaises(KeyboardInterrupt) as caught:
                with patch.object(Process, "answer", interrupted_at(place)):
                    member.tell_many([[("b0",)]] * 3)
            self.assertLessEqual(len(getattr(caught.exception, "told")), 3)
            self.assertEqual(len({*member.tell_many([[("b0",)]] * 3, after=caught.exception)}), 3)
            told += 3
            self.assertEqual(number_in(member.show()), told)
            with self.assertRaisesRegex(ValueError, "that it began with"):
                member.tell(("b1",), after=caught.exception)
            # the same facts again are told again
            member.tell(("b0",))
            told += 1
        self.assertEqual(number_in(self.joined().show()), told)
        with self.assertRaisesRegex(ValueError, "not raised by a tell"):
            member.tell(("b0",), after=ValueError())

    def test_a_member_goes_on_after_another(self) -> None:
        member, other = self.joined(), self.joined()
        with self.assertRaises(KeyboardInterrupt) as caught, patch.object(Process, "answer", interrupted_at(2)):
            member.tell_many([[("b0",)]] * 5)
        member.close()
        other.tell_many([[("b0",)]] * 5, after=caught.exception)
        self.assertEqual(number_in(other.show()), 5)

    def test_a_feed_that_is_not_synced_after_a_kill_leaves_its_tells_unsure(self) -> None:
        """What a node that was killed has written may be in memory alone."""
        member = self.joined()
        member.tell(("b0",))
        answer, killed = Process.answer, OSError(5, "Input/output error")

        def answer_and_kill(process: Process, end: float | None) -> str:
            said = answer(process, end)
            process.kill()
            raise NodeDied(f"the node died behind {said}", -signal.SIGKILL)

        with patch.object(Process, "answer", answer_and_kill), patch("os.fsync", side_effect=killed):
            with self.assertLogs("chrrep.link", "WARNING"), self.assertRaisesRegex(LogUnusable, "synced") as caught:
                member.tell(("b0",))
        fault = caught.exception
        self.assertEqual((fault.told, len(fault.unsure)), ((), 1))
        self.assertEqual([member.tell(("b0",), after=fault)], [*fault.unsure])
        self.assertEqual(number_in(member.show()), 2)

    def test_a_node_that_does_not_answer(self) -> None:
        member = FolderMember(self.folder, COUNTED, timeout=2.0)
        self.addCleanup(member.close)
        member.tell(("b0",))
        os.kill(member.pid, signal.SIGSTOP)
        with self.assertLogs("chrrep.link", "WARNING"), self.assertRaisesRegex(NodeDied, "no answer within") as caught:
            member.tell(("b0",))
        member.tell(("b0",), after=caught.exception)
        self.assertEqual(number_in(member.show()), 2)

    def test_changes_of_a_node_that_is_killed(self) -> None:
        """Each is seen once, whoever watches from when on."""
        member, other = self.joined(), self.joined()
        first = member.watch()
        with self.assertLogs("chrrep.link", "WARNING"):
            for number in range(1, 6):
                other.tell(("b0",))
                seen = first.look(SECONDS)
                assert seen
                bits = {("b" + str(at),) for at in range(3) if number >> at & 1}
                before = {("b" + str(at),) for at in range(3) if (number - 1) >> at & 1}
                self.assertEqual(({*seen.came}, {*seen.went}), (bits - before, before - bits))
                self.assertEqual({*next(member.changes(0.5)).came}, bits)
                os.kill(member.pid, signal.SIGKILL)
        self.assertIsNone(first.look())
        other.tell(("b1",))
        with self.assertRaises(KeyboardInterrupt), patch.object(Process, "answer", interrupted_at(0)):
            first.look(SECONDS)
        seen = first.look(SECONDS)
        self.assertEqual(number_in(seen.came if seen else ()) - number_in(seen.went if seen else ()), 2)

    def test_who_waits_for_changes_takes_no_time(self) -> None:
        member, other = self.joined(), self.joined()
        self.assertEqual(list(member.changes(0.2)), [])
        watch = member.watch()
        watch.look()
        begin, used = time.monotonic(), time.process_time()
        self.assertIsNone(watch.look(2.0))
        self.assertGreaterEqual(time.monotonic() - begin, 2.0)
        self.assertLess(time.process_time() - used, 0.1)
        came: queue.Queue[float] = queue.Queue()
        with member.following(lambda change: came.put(time.monotonic())):
            for _ in range(5):
                other.tell(("b0",))
                self.assertLess(came.get(timeout=SECONDS) - time.monotonic(), SECONDS)

    def test_what_is_told_within_a_tick_of_the_clock_is_seen(self) -> None:
        """The member knows what it told itself, though the times of the files are as before."""
        member = self.joined()
        watch = member.watch()
        watch.look()
        with patch("chrrep.link.feeds.times_of", return_value={}):
            watch.look()
            time.sleep(0.06)
            watch.look()
            self.assertIsNone(watch.look())
            member.tell(("b0",))
            seen = watch.look()
        self.assertEqual(seen and seen.came, (("b0",),))

    def test_what_is_told_is_heard(self) -> None:
        member, other = self.joined(PATHS), self.joined(None)
        other.tell(("path", 9, 9, 9))
        heard: queue.Queue[Any] = queue.Queue()
        member.listen(heard.put)
        ids = [other.tell(("path", 1, 2, 7)), member.tell(("path", 1, 2, 9), ("path", 1, 3, 1))]
        found: dict[Id, str] = {}
        while len(found) < 2:
            member.follow(SECONDS)
            with suppress(queue.Empty):
                found.update((entry.id, entry.atoms) for entry in heard.get_nowait())
        self.assertEqual(found, dict(zip(ids, ('[["path",1,2,7]]', '[["path",1,2,9],["path",1,3,1]]'))))

    def test_the_same_for_asyncio(self) -> None:
        async def talk() -> None:
            url = f"dir:///{self.folder}"
            async with join_later(url, PATHS) as one, join_later(url) as other:
                await one.tell(("path", "oslo", "rome", 7))
                await one.tell_many([[("path", 1, 2, 7)], [("path", 1, 2, 5)]])
                self.assertEqual(await other.show("path", 1, None, None), (("path", 1, 2, 5),))
                self.assertEqual((await other.count("path"), other.refused, other.verdict.rules), (2, 0, 1))
                telling = asyncio.create_task(one.tell(("path", "oslo", "rome", 3)))
                seen = [change async for change in other.changes(0.5)]
                await telling
                self.assertIn(("path", "oslo", "rome", 3), seen[-1].came)
                self.assertEqual(await other.catch_up(), 1)

        asyncio.run(talk())

    def test_changes_come(self) -> None:
        member, other = self.joined(), self.joined()
        changes = member.changes(5.0)
        other.tell(("b0",))
        self.assertEqual(next(changes).came, (("b0",),))
        other.tell(("path", "a", "b", 1))
        self.assertEqual(next(changes).came, (("path", "a", "b", 1),))
        seen: list[Atom] = []
        with other.following(lambda change: seen.extend(change.came)):
            member.tell(("path", "b", "c", 2))
            end = time.monotonic() + 5
            while len(seen) < 3 and time.monotonic() < end:
                time.sleep(0.01)
        self.assertEqual(sorted(seen, key=str), sorted(other.show(), key=str))

    def test_two_folders_and_their_copies_end_with_one_store(self) -> None:
        """Three members of one folder and one of another are killed at random, while feeds are copied both ways. What
        all of them show in the end is computed here from what they told."""
        second = self.room / "second"
        members = [self.joined() for _ in range(3)]
        members.append(FolderMember(second, COUNTED))
        self.addCleanup(members[-1].close)
        chance, over = random.Random(7), threading.Event()
        tellers = [Teller(member, over, random.Random(place)) for place, member in enumerate(members)]
        end = time.monotonic() + KILL_SECONDS
        kills = 0
        while time.monotonic() < end:
            time.sleep(chance.random())
            with suppress(ProcessLookupError):
                os.kill(chance.choice(members).pid, signal.SIGKILL)
                kills += 1
            bring(self.folder, second)
            bring(second, self.folder)
        over.set()
        for teller in tellers:
            teller.end()
        bring(self.folder, second)
        bring(second, self.folder)
        shortest: dict[tuple[int, int], int] = {}
        for teller in tellers:
            for way, length in teller.ways:
                shortest[way] = min(length, shortest.get(way, length))
        count = sum(teller.count for teller in tellers)
        wanted = {*counted(count), *(("path", *way, length) for way, length in shortest.items())}
        for member in members:
            self.assertEqual({*member.show()}, wanted)
            self.assertEqual(member.status()["left"], {})
        print(f"({kills} kills, {count} told)", end=" ")

    def test_a_killed_node_is_told_each_fact_once(self) -> None:
        member = self.joined()
        chance = random.Random(97)
        over = threading.Event()

        def kill() -> None:
            while not over.wait(chance.random()):
                with suppress(ProcessLookupError):
                    os.kill(member.pid, signal.SIGKILL)

        killer = threading.Thread(target=kill)
        killer.start()
        told = 0
        try:
            end = time.monotonic() + KILL_SECONDS / 2
            while time.monotonic() < end:
                try:
                    told += len(member.tell_many([("b0",)] for _ in range(chance.randrange(1, 40))))
                except NodeDied as died:
                    told += len(died.told)
        finally:
            over.set()
            killer.join()
        self.assertEqual(number_in(member.show()), told)


class Teller:
    """A thread that tells facts to a member, each just once, and keeps count of them."""

    def __init__(self, member: FolderMember, over: threading.Event, chance: random.Random) -> None:
        self.count = 0
        self.ways: list[tuple[tuple[int, int], int]] = []
        self._member, self._over, self._chance = member, over, chance
        self._failure: BaseException | None = None
        self._thread = threading.Thread(target=self._run)
        self._thread.start()

    def end(self) -> None:
        """Waits for the thread, and raises what it met."""
        self._thread.join()
        if self._failure:
            raise self._failure

    def _run(self) -> None:
        try:
            while not self._over.wait(PAUSE_SECONDS * self._chance.random()):
                self._tell(self._chance.randrange(1, 20))
        except BaseException as failure:
            self._failure = failure

    def _tell(self, count: int) -> None:
        """Tells so many operations, and goes on with them after each death of the node."""
        draw = self._chance.randrange
        ways = [((draw(50), draw(50)), draw(10**6)) for _ in range(count)]
        operations: list[list[Atom]] = [[("b0",), ("path", *way, length)] for way, length in ways]
        fault = None
        while True:
            try:
                ids = self._member.tell_many(operations, after=fault)
            except NodeDied as died:
                fault = died
            else:
                break
        assert len({*ids}) == count
        self.count += count
        self.ways += ways
