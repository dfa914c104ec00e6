"""Snapshots of logs, over whatever engine."""

import threading
from collections.abc import Callable
from functools import partial
from unittest.mock import patch

from chrrep import Id
from chrrep.link import Diverged, Entry, Link, Member, Position, Program, Reading, State
from links import Links
from programs import MARKED, PLAIN


class Snapshots(Links):
    """Stores that stand for operations, and nodes that go on from them."""

    def test_a_log_stays_short(self) -> None:
        members = [self.member(MARKED, snapshot_after=100), self.member(MARKED, snapshot_after=100)]
        for value in range(500):
            members[value % 2].tell(("path", 1, 2, 1000 - value), ("mark", value))
            if value % 50 == 0:
                members[(value + 1) % 2].follow()
        self.assertLess(len(self.entries()), 150)
        wanted = (("mark", 0), *sorted(("mark", value) for value in range(1, 500)), ("path", 1, 2, 501))
        for member in (*members, self.member()):
            self.assertEqual(sorted(member.show()), sorted(wanted))
        self.assertEqual(self.member().tell(("mark", 500)).number, 1)

    def test_a_new_member_reads_what_came_after(self) -> None:
        first = self.member(MARKED)
        first.tell_many([[("path", 1, value, value)] for value in range(50)])
        self.assertTrue(first.snapshot())
        first.tell(("mark", 1))
        link = self.link()
        read: list[Entry] = []
        plain_read = link.read

        def reading(after: Position, wait: float = 0.0) -> Reading:
            found = plain_read(after, wait)
            read.extend(found.entries)
            return found

        with patch.object(link, "read", reading), Member(link) as member:
            self.assertEqual(member.show(), first.show())
        self.assertEqual([entry.id for entry in read], [Id(first.origin, 51)])

    def test_who_is_behind_goes_on_from_the_snapshot(self) -> None:
        ahead, behind = self.member(MARKED), self.member()
        for value in range(3):
            behind.tell(("mark", 100 + value))
            ahead.tell_many([[("mark", 10 * value + more)] for more in range(10)])
            ahead.follow()
            behind.tell(("mark", 200 + value))
            self.assertTrue(ahead.snapshot())
            behind.tell(("mark", 300 + value))
        wanted = [value + hundreds for value in range(3) for hundreds in (100, 200, 300)] + list(range(30))
        self.assertEqual(sorted(behind.show()), sorted(("mark", value) for value in wanted))
        self.assertEqual(behind.tell(("mark", 400)), Id(behind.origin, 10))
        self.assertEqual(behind.show(), ahead.show())

    def test_a_snapshot_from_before_an_origins_last_owner(self) -> None:
        """Who goes on from it reads again what the one before told, and that is no other node's."""
        first, other = self.member(MARKED, 1), self.member()
        first.tell(("mark", 1))
        other.follow()
        first.tell_many([[("mark", 2)], [("mark", 3)]])
        first.close()
        first.link.close()
        second = self.member(None, 1)
        second.tell(("mark", 4))
        self.put(other.link, [other.link.entry(1, [("mark", 5)])])
        early = State(1, Program(MARKED.encode()), 1, {1: 1, other.origin: 1}, "mark(1), mark(5)")
        self.assertTrue(other.link.keep(early))
        self.assertEqual(second.show(), tuple(("mark", value) for value in range(1, 6)))
        self.assertEqual(second.tell(("mark", 6)), Id(1, 5))

    def test_what_a_snapshot_stands_for_is_not_taken_again(self) -> None:
        member = self.member(MARKED)
        member.tell_many([[("mark", value)] for value in range(5)])
        old = self.entries()
        member.snapshot()
        fresh = Member(link := self.link())
        self.stack.enter_context(fresh)
        generation = link.mark().generation
        with patch.object(link, "read", lambda after, wait=0.0: Reading(old, generation)):
            self.assertEqual(fresh.follow(), 0)
        self.assertEqual(fresh.show(), tuple(("mark", value) for value in range(5)))

    def test_a_reading_from_before_a_snapshot_is_not_taken(self) -> None:
        """Another thread has gone on from a snapshot since, which is behind what the member had read."""
        tells, other, behind = (self.member(MARKED) for _ in range(3))
        tells.tell_many([[("mark", value)] for value in range(1, 10)])
        behind.follow()
        other.tell(("mark", 20))
        text = ", ".join(f"mark({value})" for value in (*range(1, 6), 20))
        position = {tells.origin: 5, other.origin: 1}
        self.assertTrue(other.link.keep(State(1, Program(MARKED.encode()), 1, position, text)))
        tells.tell(("mark", 10))
        plain_read = behind.link.read

        def read_late(after: Position, wait: float = 0.0) -> Reading:
            found = plain_read(after, wait)
            with patch.object(behind.link, "read", plain_read):
                behind.follow()
            return found

        with patch.object(behind.link, "read", read_late):
            self.assertEqual(behind.follow(), 0)
        self.assertEqual(behind.show(), tuple(("mark", value) for value in (*range(1, 11), 20)))

    def test_nodes_are_renewed_before_they_are_full(self) -> None:
        with patch("chrrep.link.replica.TOLD_LIMIT", 300), patch.object(Link, "room_limit", 200):
            one, other = self.member(MARKED), self.member()
            nodes = set()
            for value in range(40):
                one.tell_many([[("path", 1, 2, 10_000 - 100 * value - more)] for more in range(40)])
                one.tell(("mark", value))
                other.follow()
                nodes |= {one.pid, other.pid}
            self.assertGreater(len(nodes), 10)
            for member in (one, other, self.member()):
                self.assertEqual(member.show(), (*(("mark", value) for value in range(40)), ("path", 1, 2, 6061)))

    def test_stores_that_diverge(self) -> None:
        members = [self.member(PLAIN) for _ in range(3)]
        members[0].tell(("a", 1))
        self.assertTrue(members[0].snapshot())
        self.assertTrue(members[1].snapshot())
        position = {members[0].origin: 1}
        wrong = State(1, Program(PLAIN.encode()), 2, position, "a(2)")
        self.assertTrue(members[0].link.keep(wrong))
        calls: list[Callable[[], object]] = [members[0].follow, members[1].snapshot]
        for call in calls:
            with self.assertRaises(Diverged) as raised:
                call()
            error = raised.exception
            self.assertEqual((error.position, error.ours, error.theirs), (position, "a(1)", "a(2)"))
        # who had read nothing so far goes on from the snapshot
        self.assertTrue(members[2].snapshot())

    def test_members_in_threads(self) -> None:
        """Tells and readings of one member from several threads, while others take snapshots and nodes are renewed."""
        self.stack.enter_context(patch("chrrep.link.replica.TOLD_LIMIT", 800))
        self.stack.enter_context(patch.object(Link, "room_limit", 700))
        members = [self.member(MARKED, snapshot_after=40) for _ in range(2)]
        before = [member.pid for member in members]
        over = threading.Event()
        faults: list[BaseException] = []

        def guarded(call: Callable[[], object]) -> threading.Thread:
            def run() -> None:
                try:
                    call()
                except BaseException as fault:
                    faults.append(fault)

            thread = threading.Thread(target=run)
            thread.start()
            return thread

        def follow(member: Member) -> None:
            while not over.is_set():
                member.follow(0.05)
                member.show()

        def tell(member: Member, first: int) -> None:
            for value in range(first, first + 60):
                member.tell(("mark", value), *[("path", 1, 2, -value)] * 3)

        follows = [guarded(partial(follow, member)) for member in members for _ in range(2)]
        tells = [
            guarded(partial(tell, member, 1000 * at + 100 * more))
            for at, member in enumerate(members)
            for more in range(3)
        ]
        for thread in tells:
            thread.join()
        over.set()
        for thread in follows:
            thread.join()
        self.assertEqual(faults, [])
        wanted = [1000 * at + 100 * more + value for at in range(2) for more in range(3) for value in range(60)]
        for member in (*members, self.member()):
            self.assertEqual(member.show("mark"), tuple(("mark", value) for value in wanted))
            self.assertEqual(member.show("path"), (("path", 1, 2, -wanted[-1]),))
        for member, pid in zip(members, before):
            self.assertNotEqual(member.pid, pid)
