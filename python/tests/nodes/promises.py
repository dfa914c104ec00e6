"""What nodes promise where something goes wrong, over whatever engine: what an exception says of the log is so."""

import gc
import os
import random
import signal
import threading
import time
import weakref
from collections import Counter
from collections.abc import Callable, Iterator, Sequence
from contextlib import contextmanager, suppress
from functools import partial
from typing import Any
from unittest.mock import patch

import chrrep
from chrrep import Atom, Full, Id, NodeDied, WrongProcess
from chrrep.link import (
    Batch,
    Diverged,
    Link,
    LinkLost,
    LogUnusable,
    Member,
    OriginShared,
    ProgramChanged,
    connect,
)
from chrrep.link.replica import Replica
from engines import Engine, Server
from links import Links
from programs import MARKED, PATHS, PLAIN

LONGER = PATHS.replace("D =< E", "D >= E") + ":- chr_constraint mark/1.\n"

Marks = list[list[tuple[str, int]]]


def marks(first: int, count: int) -> Marks:
    """Operations that each tell a mark of their own, which no rule takes away."""
    return [[("mark", mark)] for mark in range(first, first + count)]


def is_running(pid: int) -> bool:
    with suppress(ProcessLookupError):
        os.kill(pid, 0)
        return True
    return False


class Outcomes(Links):
    """What is raised by a tell says which operations are in the log, and a retry tells each of them once."""

    def holds(self, told: Sequence[Id], total: int | None = None) -> None:
        """Whether the log has just these, and each mark once."""
        with self.fresh() as member:
            count = Counter(member.show("mark"))
        self.assertEqual(set(count.values()) | {1}, {1})
        self.assertEqual(len(count), len(set(told)) if total is None else total)
        newest = Counter(id.origin for id in told)
        self.assertEqual(len(set(told)), newest.total())

    @contextmanager
    def fresh(self) -> Iterator[Member]:
        with self.link() as link, Member(link) as member:
            yield member

    def raised_by(self, call: Callable[[], object]) -> Any:
        try:
            call()
        except BaseException as fault:
            return fault
        return self.fail("nothing was raised")

    def test_what_is_raised_before_the_append(self) -> None:
        member = self.member(MARKED)
        member.tell(("mark", 0))
        for atoms, kind in (([("b", 1)], chrrep.UnknownSymbol), ([("mark", 2**63)], chrrep.Shape)):
            fault = self.raised_by(lambda: member.tell_many([*marks(1, 3), atoms]))
            self.assertEqual((type(fault), fault.told, fault.unsure), (kind, (), ()))
        os.kill(member.pid, signal.SIGKILL)
        fault = self.raised_by(member.show)
        self.assertIsInstance(fault, NodeDied)
        # the node is asked of a symbol that it hasn't taken so far
        fault = self.raised_by(lambda: member.tell(("path", 1, 2, 3)))
        self.assertEqual((type(fault), fault.told, fault.unsure), (NodeDied, (), ()))
        self.holds([Id(member.origin, 1)])

    def test_what_is_raised_by_the_append(self) -> None:
        """Whether the batch came into the log or not: it is unsure, and the same operations told on are there once."""
        for kind in (LinkLost, LogUnusable, KeyboardInterrupt):
            for is_there in (True, False):
                with self.subTest(kind=kind, is_there=is_there):
                    self.log += "x"
                    member = self.member(MARKED)
                    operations = marks(0, 2500)
                    fault = self.failed_append(member, operations, kind, is_there)
                    self.assertEqual(fault.told, tuple(Id(member.origin, number) for number in range(1, 1001)))
                    self.assertEqual(fault.unsure, tuple(Id(member.origin, number) for number in range(1001, 2001)))
                    ids = member.tell_many(operations, after=fault)
                    self.assertEqual(ids, [Id(member.origin, number) for number in range(1, 2501)])
                    self.holds(ids)

    def failed_append(self, member: Member, operations: Marks, kind: type[BaseException], is_there: bool) -> Any:
        """What a tell of these raises whose second append fails, before it was made or after."""
        append = member.link.append
        batches = iter((True, False))

        def failing(batch: Batch) -> None:
            if next(batches):
                return append(batch)
            if is_there:
                append(batch)
            batch.is_unsure = True
            raise kind("what became of it")

        with patch.object(member.link, "append", failing):
            return self.raised_by(lambda: member.tell_many(operations))

    def test_a_tell_by_another_thread_before_the_retry(self) -> None:
        """It takes the number that was not used, and neither is lost or told twice."""
        for is_there in (True, False):
            member = self.member(MARKED)
            first = 10_000 * (1 + is_there)
            fault = self.failed_append(member, marks(first, 1001), LinkLost, is_there)
            between = member.tell(("mark", first + 5000))
            self.assertEqual(between.number, 1002 if is_there else 1001)
            ids = member.tell_many(marks(first, 1001), after=fault)
            self.assertEqual(ids[-1].number, 1001 if is_there else 1002)
        self.holds([], 2 * 1002)

    def test_a_retry_of_something_else(self) -> None:
        member = self.member(MARKED)
        fault = self.failed_append(member, marks(0, 1001), LinkLost, True)
        calls: list[Callable[[], object]] = [
            lambda: member.tell_many(marks(1, 1001), after=fault),
            lambda: member.tell(("mark", 0), after=ValueError()),
        ]
        for call in calls:
            with self.assertRaises(ValueError):
                call()
        self.assertEqual(len(member.tell_many(marks(0, 1001), after=fault)), 1001)
        self.holds([], 1001)

    def test_nothing_after_the_append_is_raised(self) -> None:
        """The next call finds it out, and what was told is told."""
        died = NodeDied("it died")
        diverged = Diverged({}, "a", "b")
        rows: list[tuple[object, str, Exception]] = [
            (Replica, "give", died),
            (Link, "count", LinkLost("away")),
            (Member, "_keep", LogUnusable("full")),
            (Member, "_keep", diverged),
            (Member, "_hear", RuntimeError("a listener's own")),
        ]
        told: list[Id] = []
        for at, (kind, name, fault) in enumerate(rows):
            member = self.member(MARKED, snapshot_after=2000)
            member.listen(lambda entries: None)
            with self.subTest(name=name, fault=fault), self.assertLogs("chrrep.link", "WARNING"):
                holder = member.link if kind is Link else kind
                with patch.object(holder, name, side_effect=fault):
                    ids = member.tell_many(marks(10_000 * at, 2500))
                self.assertEqual(ids, [Id(member.origin, number) for number in range(1, 2501)])
            told += ids
            if fault in (died, diverged):
                self.assertIs(type(self.raised_by(member.show)), type(fault))
        self.holds(told)

    def test_a_node_that_dies_while_it_is_told(self) -> None:
        """It is told after the append: what was appended is in the log, and returned or in what is raised."""
        member = self.member(MARKED)
        told: list[Id] = []
        member.tell(("mark", 10**6))
        os.kill(member.pid, signal.SIGKILL)
        with suppress(NodeDied):
            for at in range(5):
                told += member.tell_many(marks(1000 * at, 1000))
        fault = self.raised_by(lambda: member.tell_many(marks(9000, 1000)))
        self.assertEqual((type(fault), fault.told, fault.unsure), (NodeDied, (), ()))
        self.assertLess(len(told), 5000)
        self.holds([*told, Id(member.origin, 0)])

    def test_an_upgrade_in_the_middle_of_a_tell(self) -> None:
        member, other = self.member(MARKED), self.member()
        fault = self.raised_by(lambda: self.tell_beside(member, marks(0, 5000), lambda: other.upgrade(LONGER)))
        self.assertIsInstance(fault, ProgramChanged)
        self.assertEqual((len(fault.told), fault.unsure), (2000, ()))
        member.rejoin()
        self.assertEqual(len(member.tell_many(marks(0, 5000), after=fault)), 5000)
        self.holds([], 5000)

    def tell_beside(self, member: Member, operations: Marks, call: Callable[[], object]) -> list[Id]:
        """Tells operations; the call is made once two batches of them are in the log."""
        append = member.link.append
        batches = iter(range(100))

        def appending(batch: Batch) -> None:
            if next(batches) == 2:
                call()
            append(batch)

        with patch.object(member.link, "append", appending):
            return member.tell_many(operations)

    def test_going_over_tells_nothing_twice(self) -> None:
        member, other = self.member(MARKED), self.member()
        programs = iter((LONGER, MARKED, LONGER))

        def tell() -> list[Id]:
            ids = [member.tell(("mark", 10**6)), member.tell(("mark", 10**6 + 1))]
            return [*ids, *self.tell_beside(member, marks(0, 5000), lambda: other.upgrade(next(programs)))]

        append_once = self.tell_beside
        calls = iter(range(10))

        def at_first(member: Member, operations: Marks, call: Callable[[], object]) -> list[Id]:
            return append_once(member, operations, call if next(calls) < 2 else lambda: None)

        with patch.object(self, "tell_beside", at_first):
            ids = member.going_over(tell)
        self.assertEqual(ids, [Id(member.origin, number) for number in range(1, 5003)])
        self.assertEqual(other.going_over(lambda: other.count("mark")), 5002)
        # what is told again by the caller's own will is told
        twice = member.going_over(lambda: [member.tell(("mark", 7)), member.tell(("mark", 7))])
        self.assertEqual(twice[1].number, 5004)
        self.assertEqual(other.going_over(lambda: other.count("mark", 7)), 3)

    def test_going_over_that_fails_tells_nothing_twice(self) -> None:
        """What is raised where the log's new program can't be taken up says which operations are in the log."""
        member, other = self.member(MARKED), self.member()
        operations = marks(0, 5000)
        tell = partial(self.tell_beside, member, operations, lambda: other.upgrade(LONGER))
        for kind in (LinkLost, KeyboardInterrupt):
            with patch.object(member, "rejoin", side_effect=kind("away")):
                fault = self.raised_by(lambda: member.going_over(tell))
            self.assertEqual((type(fault), len(fault.told), fault.unsure), (kind, 2000, ()))
            tell = partial(member.tell_many, operations, after=fault)
        self.assertEqual(len(member.going_over(tell)), 5000)
        self.holds([], 5000)

    def test_a_full_log_in_the_middle_of_a_tell(self) -> None:
        with patch.object(Link, "room_limit", 2500):
            member = self.member(MARKED)
            fault = self.raised_by(lambda: member.tell_many(marks(0, 5000)))
            self.assertEqual((type(fault), len(fault.told), fault.unsure), (Full, 2000, ()))
            self.holds(fault.told)
        self.assertEqual(len(member.tell_many(marks(0, 5000), after=fault)), 5000)
        self.holds([], 5000)


class Interrupts(Links):
    """Ctrl-C that the program takes, at whatever moment of a call."""

    ROUNDS = 400
    is_armed = False

    def setUp(self) -> None:  # noqa: N802
        super().setUp()
        before = signal.signal(signal.SIGALRM, self.interrupt)
        self.addCleanup(signal.signal, signal.SIGALRM, before)

    def interrupt(self, *_: object) -> None:
        """Interrupts the call that is made, and nothing that comes after it."""
        if self.is_armed:
            self.is_armed = False
            raise KeyboardInterrupt

    def test_an_interrupt_at_any_moment(self) -> None:
        """The tells after it go on at once, and what is told on is in the log once."""
        link = self.link(patience=20.0)
        member = self.stack.enter_context(Member(link, MARKED, snapshot_after=10**6))
        chance, longest, count = random.Random(5), self.seconds_of(member), 0
        told: "Counter[Atom]" = Counter()
        for turn in range(1, self.ROUNDS + 1):
            operations: list[list[Atom]] = [[("mark", 10 * turn + at)] for at in range(1 + turn % 3)]
            if turn % 4 == 0:
                # names are appended in another way
                operations = [[("mark", f"name {turn}")]]
            told.update(atom for atom, in operations)
            fault = self.interrupted(member, operations, 1.2 * longest * chance.random())
            count += fault is not None
            begin = time.monotonic()
            while fault:
                try:
                    # what came before the tell had begun leaves nothing to go on after
                    member.tell_many(operations, after=fault if hasattr(fault, "tell") else None)
                    fault = None
                except NodeDied as died:
                    fault = died
                    member = self.stack.enter_context(Member(link, snapshot_after=10**6))
            self.assertLess(time.monotonic() - begin, 15.0)
        self.assertGreater(count, self.ROUNDS // 4)
        for each in (member, self.member()):
            self.assertEqual(Counter(each.show("mark")), told)

    def seconds_of(self, member: Member) -> float:
        """How long a tell takes that nothing delays."""
        times = []
        for _ in range(20):
            begin = time.monotonic()
            member.tell(("path", 1, 2, 3))
            times.append(time.monotonic() - begin)
        return min(times)

    def interrupted(self, member: Member, operations: list[list[Atom]], seconds: float) -> BaseException | None:
        """What a tell raises that is interrupted after so long, unless it is done before."""
        try:
            self.is_armed = True
            signal.setitimer(signal.ITIMER_REAL, max(seconds, 1e-6))
            member.tell_many(operations)
            # no interrupt comes between these two lines, since the call is one of Python's
            self.is_armed = False
        except (KeyboardInterrupt, NodeDied) as fault:
            return fault
        finally:
            self.is_armed = False
            signal.setitimer(signal.ITIMER_REAL, 0.0)
        return None


class Moves(Links):
    """Origins that another node has taken."""

    def take(self, member: Member, asks: bool = False) -> Link:
        """A link that takes the member's origin, as after a lease that ran out."""
        self.part(member)
        link = self.link()
        # the member may renew its lease in between
        while not link._hold(member.origin, not asks, link._leases()[member.origin].until):
            pass
        link.origin = member.origin
        return link

    def part(self, member: Member) -> None:
        """Has the engine forget what it holds for the member alone."""
        engine = getattr(member.link, "_engine")
        if type(member.link).__name__ == "PostgresLink":
            engine.close()

    def test_a_member_whose_origin_was_allotted_takes_another(self) -> None:
        member = self.member(MARKED)
        origin = member.origin
        member.tell(("mark", 0))
        other = self.take(member)
        with self.assertLogs("chrrep.link", "WARNING"):
            ids = member.tell_many(marks(1, 1500))
        self.assertNotEqual(member.origin, origin)
        self.assertEqual(ids, [Id(member.origin, number) for number in range(1, 1501)])
        self.put(other, [other.entry(2, [("mark", 5000)])])
        self.assertEqual(member.count("mark"), 1502)
        self.assertEqual(member.tell(("mark", 6000)).number, 1501)

    def test_a_member_that_reads_of_its_origin_takes_another(self) -> None:
        member = self.member(MARKED)
        origin = member.origin
        member.tell(("mark", 0))
        other = self.take(member)
        self.put(other, [other.entry(2, [("mark", 1)])])
        self.assertEqual(member.count("mark"), 2)
        self.assertNotEqual(member.origin, origin)
        self.assertEqual(member.tell(("mark", 2)), Id(member.origin, 1))

    def test_what_was_unsure_under_the_origin_before(self) -> None:
        """What came into the log isn't told under the new one, and what didn't is."""
        for is_there in (True, False):
            with self.subTest(is_there=is_there):
                member = self.member(MARKED)
                origin, append = member.origin, member.link.append
                member.tell(("mark", 10**6 + is_there))

                def lose(batch: Batch) -> None:
                    if is_there:
                        append(batch)
                    batch.is_unsure = True
                    raise LinkLost("what became of it")

                operations = marks(10**4 * (1 + is_there), 3)
                with patch.object(member.link, "append", lose), self.assertRaises(LinkLost) as raised:
                    member.tell_many(operations)
                other = self.take(member)
                number = 5 if is_there else 2
                self.put(other, [other.entry(number, [("mark", 10**7 + is_there)])])
                ids = member.tell_many(operations, after=raised.exception)
                self.assertEqual({id.origin == origin for id in ids}, {is_there})
                self.assertNotEqual(member.tell(("mark", 2 * 10**7 + is_there)).origin, origin)
        with self.link() as link, Member(link) as fresh:
            self.assertEqual(set(Counter(fresh.show("mark")).values()), {1})
            self.assertEqual(fresh.count("mark"), 2 * (1 + 3 + 1 + 1))

    def test_an_origin_that_was_asked_for_is_shared(self) -> None:
        member = self.member(MARKED, 4)
        member.tell(("mark", 0))
        self.take(member, asks=True)
        for _ in range(2):
            with self.assertRaises(OriginShared) as raised:
                member.tell_many(marks(1, 10))
            self.assertEqual((raised.exception.told, raised.exception.unsure, member.origin), ((), (), 4))
        self.assertEqual(member.show(), (("mark", 0),))


class Forks(Links):
    """Processes that go on with what their parent has joined."""

    def test_a_fork_is_refused(self) -> None:
        member = self.member(MARKED)
        member.tell(("mark", 0))
        calls: list[Callable[[], object]] = [
            lambda: member.tell(("mark", 1)), member.show, member.follow, member.snapshot, member.link.newest,
            lambda: member.going_over(lambda: member.tell(("mark", 1))),
        ]  # fmt: skip
        # another thread holds the lock when the process is forked, and is not there in the child
        held, over = threading.Event(), threading.Event()

        def hold() -> None:
            with member._lock:
                held.set()
                over.wait(60)

        holder = threading.Thread(target=hold)
        holder.start()
        held.wait()
        child = os.fork()
        if not child:
            os._exit(self.refused_in_child(member, calls))
        over.set()
        holder.join()
        self.assertEqual(os.waitstatus_to_exitcode(os.waitpid(child, 0)[1]), len(calls))
        # what the child has closed is the parent's still
        self.assertEqual(member.tell(("mark", 2)), Id(member.origin, 2))
        self.assertEqual(member.show(), (("mark", 0), ("mark", 2)))
        self.assertIn(member.origin, member.link._leases())

    def refused_in_child(self, member: Member, calls: Sequence[Callable[[], object]]) -> int:
        """How many calls say that they were made by a fork."""
        signal.alarm(50)
        count = 0
        for call in calls:
            try:
                call()
            except BaseException as fault:
                count += isinstance(fault, WrongProcess)
        with suppress(BaseException):
            member.close()
            member.link.close()
        return count


class Losses(Links):
    """Engines that have lost what a log had."""

    def test_a_log_that_is_gone(self) -> None:
        """Nothing is acknowledged that a new member wouldn't see, also where another log stands in its place."""
        for is_there_another in (False, True):
            with self.subTest(is_there_another=is_there_another):
                self.log += "x"
                told, silent = self.member(MARKED), self.member()
                told.tell(("mark", 1))
                silent.follow()
                self.engine.lose(self.log)
                if is_there_another and self.is_made_anew:
                    self.member(MARKED).tell(("mark", 2))
                calls: list[Callable[[], object]] = [
                    lambda: told.tell(("mark", 3)), lambda: silent.tell(("mark", 4)), told.show, silent.show,
                    silent.snapshot, lambda: silent.upgrade(LONGER),
                ]  # fmt: skip
                for at, call in enumerate(calls):
                    with self.subTest(at=at), self.assertRaisesRegex(LinkLost, "has lost") as raised:
                        call()
                    self.assertEqual((raised.exception.told, raised.exception.unsure), ((), ()))

    is_made_anew = True
    """Whether who joins such a log makes it anew."""

    def test_another_log_in_its_place_that_differs_by_its_id_alone(self) -> None:
        member = self.member(MARKED)
        member.tell(("mark", 1))
        self.engine.write_id(self.log, "y" * 32)
        calls: list[Callable[[], object]] = [lambda: member.tell(("mark", 2)), member.show, member.snapshot]
        for call in calls:
            with self.assertRaisesRegex(LinkLost, "another log") as raised:
                call()
            self.assertEqual((raised.exception.told, raised.exception.unsure), ((), ()))
        self.assertEqual(self.member().show(), (("mark", 1),))

    def test_operations_of_its_own_that_are_gone(self) -> None:
        member = self.member(MARKED)
        member.tell_many(marks(0, 5))
        self.engine.lose_entries(self.log, member.origin)
        with self.assertRaisesRegex(LinkLost, f"operations 1 to 5 of origin {member.origin} are not there") as raised:
            member.tell(("mark", 5))
        self.assertEqual((raised.exception.told, raised.exception.unsure), ((), ()))
        with self.assertRaisesRegex(LinkLost, "has lost"):
            member.show()


class Rooms(Links):
    """Logs that never hold more than who joins them can."""

    GROWS = ":- chr_constraint x/1, y/2.\n:- chr_weight x/1 = 9.\nx(K) <=> " + ", ".join(
        f"y(K,{at})" for at in range(8)
    ) + ".\n"
    CARRIES = ":- chr_constraint " + ", ".join(f"b{bit}/0" for bit in range(20)) + ".\n" + "".join(
        f"b{bit}, b{bit} <=> b{bit + 1}.\n" for bit in range(19)
    )

    def make_small(self) -> None:
        """Has logs hold 400 atoms, and nodes 450."""
        self.stack.enter_context(patch.object(Link, "room_limit", 400))
        self.stack.enter_context(patch("chrrep.link.replica.TOLD_LIMIT", 450))

    def test_rules_that_leave_more_than_they_take(self) -> None:
        """50 atoms come to 400: another is refused, though the node was told few."""
        self.make_small()
        member, behind = self.member(self.GROWS), self.member()
        member.tell_many([[("x", key)] for key in range(50)])
        calls: list[Callable[[], object]] = [lambda: member.tell(("x", 50)), lambda: behind.tell(("y", 0, 0))]
        for call in calls:
            with self.assertRaises(Full) as raised:
                call()
            self.assertEqual((raised.exception.told, raised.exception.unsure), ((), ()))
        member.snapshot()
        self.assertEqual(member.link.count().room, 400)
        for other in (behind, self.member()):
            self.assertEqual(other.count("y"), 400)
        self.assertTrue(self.member().snapshot())
        behind.upgrade(self.GROWS + "% other\n")
        self.assertEqual(self.member().count("y"), 400)
        with self.assertRaises(Full):
            behind.tell(("y", 0, 0))

    def test_members_that_tell_at_once(self) -> None:
        """What each has read leaves room for all that it tells, but not for what all tell."""
        self.make_small()
        members = [self.member(MARKED, snapshot_after=10**6) for _ in range(5)]
        members[0].tell_many(marks(0, 340))
        for member in members:
            member.follow()
        told = 340
        for at, member in enumerate(members, 1):
            try:
                told += len(member.tell_many(marks(1000 * at, 20)))
            except Full as fault:
                self.assertEqual((fault.told, fault.unsure), ((), ()))
        self.assertEqual(told, 400)
        for member in (*members, self.member()):
            self.assertEqual(member.count("mark"), told)
        members[1].upgrade(LONGER)
        self.assertEqual(self.member().count("mark"), told)

    def test_room_that_rules_give_back(self) -> None:
        """More is told than fits in at once, by members that never take a snapshot but for room."""
        self.make_small()
        members = [self.member(self.CARRIES, snapshot_after=10**9) for _ in range(2)]
        for at in range(20):
            members[at % 2].tell_many([[("b0",)] * 50] * 3)
        for member in (*members, self.member()):
            self.assertEqual(sum(2 ** int(str(name)[1:]) for name, in member.show()), 3000)

    def test_a_program_that_makes_too_much_of_a_store(self) -> None:
        """The log stays with the one before."""
        self.make_small()
        member = self.member(":- chr_constraint x/1, y/2.\n")
        member.tell_many([[("x", key)] for key in range(110)])
        with self.assertRaises(Full):
            member.upgrade(self.GROWS)
        # no two of them meet, so that the store is as large, but others may come
        pairs = ":- chr_constraint x/1, y/2.\n:- chr_weight x/1 = 9.\nx(K), x(K) <=> "
        with self.assertRaises(Full):
            member.upgrade(pairs + ", ".join(f"y(K,{at})" for at in range(8)) + ".\n")
        self.assertEqual(member.count("x"), 110)
        self.assertEqual(self.member().tell(("x", 110)).number, 1)

    def test_names_that_nothing_uses_are_removed(self) -> None:
        """With the snapshot that finds none of them in the store, but for those that were told after it began."""
        one, other = self.member(":- chr_constraint a/1, b/1.\na(X), b(X) <=> true.\n"), self.member()
        one.tell_many([[("a", f"name {at}")] for at in range(100)])
        other.show()
        self.assertEqual(len(one.link.names()), 100)
        one.tell_many([[("b", f"name {at}")] for at in range(99)])
        with patch.object(type(one), "_keep", self.telling_between(other)):
            self.assertTrue(one.snapshot())
        names = {named.name for named in one.link.names()}
        self.assertEqual(names, {"name 99", "name 7", "new"})
        wanted = {("a", "name 99"), ("a", "name 7"), ("a", "new")}
        for member in (one, other, self.member()):
            self.assertEqual(set(member.show()), wanted)
        # what was removed is told again, and is shown to who has forgotten it
        other.tell(("a", "name 50"))
        self.assertIn(("a", "name 50"), self.member().show())

    def telling_between(self, other: Member) -> Callable[..., bool]:
        keep = Member._keep

        def telling(member: Member, *values: Any) -> bool:
            other.tell(("a", "name 7"), ("a", "new"))
            return keep(member, *values)

        return telling


class Clocks(Links):
    """Leases and seals."""

    def test_a_seal_of_a_clock_that_was_wrong(self) -> None:
        member = self.member(MARKED)
        self.engine.write_seal(self.log, 3600.0)
        with patch.object(member.link, "patience", 5.0):
            self.assertEqual(member.tell(("mark", 1)).number, 1)

    def test_a_lease_of_a_clock_that_was_wrong(self) -> None:
        self.member(MARKED, 3).link.close()
        self.engine.write_lease(self.log, 3, 3600.0)
        self.assertEqual(self.member(None, 3).tell(("mark", 1)), Id(3, 1))

    def test_a_lease_is_held_on_by_what_is_told_and_read(self) -> None:
        """Also where the thread that does that comes too late."""
        with patch("chrrep.link.log._hold_on"), patch("chrrep.link.log._HEARTBEAT", 0.0):
            member = self.member(MARKED)
        calls: list[Callable[[], object]] = [lambda: member.tell(("mark", 1)), member.follow]
        for call in calls:
            before = member.link._leases()[member.origin].until
            time.sleep(1.1)
            with patch("chrrep.link.log._HEARTBEAT", 0.0):
                call()
            self.assertGreater(member.link._leases()[member.origin].until, before)

    def test_a_link_that_is_dropped_is_closed(self) -> None:
        looks = self.link()
        link = connect(self.engine.url, log=self.log)
        member = Member(link, MARKED)
        origin, pid = member.origin, member.pid
        dropped, ended = weakref.ref(link), weakref.ref(member)
        del link, member

        def is_closed() -> bool:
            gc.collect()
            gone = dropped() is None and ended() is None
            return gone and looks._leases()[origin].is_free and not is_running(pid)

        # the thread that renews its lease may hold it for a moment
        self.wait_for(is_closed)
        self.assertEqual(self.link().origin, origin)


class Damages(Links):
    """Logs that something else has written into."""

    def test_entries_of_something_else(self) -> None:
        """They are set aside, and others are taken."""
        member = self.member(PLAIN)
        texts: list[str | bytes] = ["7", '[["a","x"]]', "[" * 5000, *self.odd_atoms()]
        for number, atoms in enumerate(texts, 1):
            self.engine.write_entry(self.log, 77, number, atoms)
        self.engine.write_entry(self.log, 77, 100, '[["a",1]]')
        for origin in self.odd_origins():
            self.engine.write_entry(self.log, origin, 1, '[["a",2]]')
        member.tell(("a", 3))
        count = len(texts) + len(self.odd_origins())
        with self.assertLogs("chrrep.link", "WARNING"):
            for each in (member, self.member()):
                self.assertEqual((each.show(), each.refused), ((("a", 1), ("a", 3)), count))
        self.assertEqual(len(member.link.refused()), count)
        member.snapshot()
        self.assertEqual(self.member().show(), (("a", 1), ("a", 3)))

    def odd_atoms(self) -> list[str | bytes]:
        """Atoms that this engine takes and no link writes."""
        return []

    def odd_origins(self) -> list[int]:
        """Origins that no node has, the one of stores among them."""
        return [2**32 - 1, 2**40]

    def test_a_state_that_is_damaged(self) -> None:
        texts = {"program": "{", "position": '{"a":1}', "store": "mark(1", **self.odd_numbers()}
        for field, value in texts.items():
            with self.subTest(field=field):
                self.log += "x"
                with self.member(MARKED) as member:
                    member.tell(("mark", 1))
                    member.snapshot()
                    member.tell(("mark", 2))
                self.engine.write_state(self.log, field, value)
                with self.assertRaises(LogUnusable):
                    self.member()

    def odd_numbers(self) -> dict[str, str]:
        """Numbers of the state that this engine takes and no link writes."""
        return {}

    def test_a_program_and_a_store_that_no_node_takes(self) -> None:
        for field, value in (("program", '{"wide": false, "text": "a."}'), ("store", "b(1)")):
            self.log += "x"
            with self.member(MARKED) as member:
                member.tell(("mark", 1))
                member.snapshot()
            self.engine.write_state(self.log, field, value)
            with self.assertRaises(LogUnusable):
                self.member()

    def test_names_of_logs(self) -> None:
        for log in ("", "a\nb", "a\0", "x" * 201, *self.odd_logs()):
            with self.subTest(log=log), self.assertRaises(ValueError):
                connect(self.engine.url, log=log)

    def odd_logs(self) -> list[str]:
        return []

    def test_a_log_of_the_format_before(self) -> None:
        self.engine = self.old_engine()
        self.engine.make_old(self.log, MARKED, "mark(1), path(1,2,5)")
        one, other = self.member(), self.member(MARKED)
        self.assertEqual([named[1:] for named in one.link.names()], [(5, "five")])
        self.assertEqual(one.link.count().room, 3 + self.EXTRA)
        for member in (one, other):
            self.assertEqual(member.show(), (("mark", 1), ("mark", 7), ("path", 1, 2, "five")))
        self.assertEqual({one.origin, other.origin}, {1, 2})
        one.tell(("mark", 8), ("path", 5, "six", 1))
        self.assertTrue(other.snapshot())
        self.assertEqual(other.link.count().room, 5)
        self.assertEqual(self.member().count("mark"), 3)
        self.assertEqual([named.name for named in one.link.names()], ["five", "six"])

    def old_engine(self) -> Engine:
        """One that can have a log of the format before."""
        return self.engine

    EXTRA = 1
    """Atoms of the operation that the snapshot stands for, and that is kept as its origin's last."""


class Promises(Outcomes, Interrupts, Moves, Forks, Losses, Rooms, Clocks, Damages):
    """All of them that hold over any engine."""


class Hangs(Links):
    """Servers that take what is sent to them and give no answer."""

    engine: Server

    def test_an_engine_that_hangs(self) -> None:
        """Each call ends while it hangs, and what was told then is in the log once or not at all."""
        # how long an answer is waited for is a part of this
        member = self.stack.enter_context(Member(self.link(patience=8.0), MARKED))
        member.tell(("mark", 0))
        calls: list[Callable[[], object]] = [
            lambda: member.tell_many(marks(1, 3)), member.show, member.follow, lambda: member.follow(30.0),
            lambda: self.link(patience=1.0), member.link.close,
        ]  # fmt: skip
        faults: list[object] = []
        member.link.patience = 1.5
        with self.engine.hanging():
            for call in calls[:-1]:
                faults.append(self.raised_in_time(call))
        self.assertEqual([type(fault) for fault in faults], [LinkLost] * 5)
        tell = faults[0]
        assert isinstance(tell, LinkLost)
        self.assertEqual((tell.told, len(tell.unsure)), ((), 3))
        member.link.patience = 60.0
        ids = member.tell_many(marks(1, 3), after=tell)
        self.assertEqual(ids, [Id(member.origin, number) for number in (2, 3, 4)])
        self.assertEqual(member.tell(("mark", 4)), Id(member.origin, 5))
        self.assertEqual(self.member().show(), tuple(("mark", mark) for mark in range(5)))
        with self.engine.hanging():
            # the thread that holds the origin waits for an answer by now, and isn't waited for
            time.sleep(4.0)
            begin = time.monotonic()
            self.assertIsNone(self.raised_in_time(calls[-1]))
            self.assertLess(time.monotonic() - begin, 15.0)

    def raised_in_time(self, call: Callable[[], object]) -> BaseException | None:
        """What a call raises within a time that is far longer than it is patient."""
        raised: list[BaseException] = []

        def make() -> None:
            try:
                call()
            except BaseException as fault:
                raised.append(fault)

        thread = threading.Thread(target=make, daemon=True)
        thread.start()
        thread.join(60.0)
        self.assertFalse(thread.is_alive())
        return raised[0] if raised else None

    def test_a_live_node_keeps_its_origin_over_a_restart(self) -> None:
        """Whoever joins meanwhile gets another, by chance or because it asks for just that."""
        member = self.member(MARKED)
        origin = member.origin
        member.tell(("mark", 0))
        self.engine.stop()
        joined: list[object] = []

        def join(asked: int | None) -> None:
            try:
                with connect(self.engine.url, asked, log=self.log, patience=60.0) as link:
                    joined.append(link.origin)
            except OriginShared as fault:
                joined.append(fault.origin * -1)

        with patch.object(Link, "lease_seconds", 0.5):
            threads = [threading.Thread(target=join, args=(asked,)) for asked in (None, origin)]
            for thread in threads:
                thread.start()
            time.sleep(1.0)
            self.engine.start()
            for thread in threads:
                thread.join()
        self.assertEqual(member.tell(("mark", 1)), Id(origin, 2))
        self.assertIn(-origin, joined)
        self.assertNotIn(origin, joined)
