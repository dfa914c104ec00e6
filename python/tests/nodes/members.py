"""Members of a log, over whatever engine."""

import json
import os
import queue
import random
import signal
import threading
from typing import Any
from unittest.mock import patch

import chrrep
from chrrep import Change, Id, Operation
from chrrep.link import Batch, Entry, Link, LinkLost, Member
from jumbled import Jumbled
from kills import SECONDS
from links import Links
from programs import COINS, MARKED, PATHS, PLAIN, store_of


class Members(Links):
    """What members tell and show."""

    def test_members_show_one_store(self) -> None:
        members = [self.member(COINS, origin) for origin in (1, 2, 3)]
        for member in members:
            self.assertEqual(member.tell(("coin",), ("coin",), ("coin",)), Id(member.origin, 1))
        for member in members:
            self.assertEqual(member.show(), (("coin",), *[("note",)] * 4))
        self.assertEqual(members[0].follow(), 0)

    def test_many_are_told_at_once(self) -> None:
        one, other = self.member(PLAIN), self.member()
        ids = one.tell_many([[("a", value), ("a", -value)] for value in range(1, 2501)])
        self.assertEqual(ids, [Id(one.origin, number) for number in range(1, 2501)])
        self.assertEqual(one.tell_many([]), [])
        self.assertEqual(other.follow(), 1000)
        self.assertEqual(other.show(), one.show())
        self.assertEqual(len(other.show()), 5000)
        with self.assertRaises(chrrep.UnknownSymbol):
            one.tell_many([[("a", 1)]] * 2000 + [[("b", 1)]])
        self.assertEqual(one.tell(("a", 0)), Id(one.origin, 2501))

    def test_parts_and_changes_of_a_store_are_shown(self) -> None:
        one, other = self.member(PATHS), self.member()
        one.tell(("path", 1, 2, 7), ("path", 3, 4, 5))
        self.assertEqual(other.show("path", 1, None, None), (("path", 1, 2, 7),))
        self.assertEqual(other.count("path"), 2)
        changes = other.changes(SECONDS)
        self.assertEqual(next(changes), ((("path", 1, 2, 7), ("path", 3, 4, 5)), ()))
        one.tell(("path", 3, 4, 9))
        tells = threading.Timer(0.2, one.tell, [("path", 1, 2, 3)])
        tells.start()
        self.assertEqual(next(changes), ((("path", 1, 2, 3),), (("path", 1, 2, 7),)))
        tells.join()
        self.assertEqual(list(one.changes(0.1)), [((("path", 1, 2, 3), ("path", 3, 4, 5)), ())])

    def test_members_tell_how_far_they_have_read(self) -> None:
        with patch("chrrep.link.log._REPORT_SECONDS", 0.05):
            one, other = self.member(MARKED, 1), self.member(None, 7)
            one.tell_many([[("mark", value)] for value in range(5)])
            wanted = {1: {1: 5}, 7: {}}
            self.wait_for(lambda: {heard.origin: heard.position for heard in other.link.members()} == wanted)
            other.follow()
            wanted[7] = {1: 5}
            self.wait_for(lambda: {heard.origin: heard.position for heard in one.link.members()} == wanted)
            self.assertTrue(all(0.0 <= heard.seconds < SECONDS for heard in one.link.members()))
            other.link.close()
            self.assertEqual([heard.origin for heard in one.link.members()], [1])

    def test_a_thread_follows_and_calls_back(self) -> None:
        one, other = self.member(PATHS), self.member()
        one.tell(("path", 1, 2, 7))
        came: queue.Queue[Change] = queue.Queue()
        with other.following(came.put) as following:
            self.assertEqual(came.get(timeout=SECONDS), ((("path", 1, 2, 7),), ()))
            # calls from elsewhere go on meanwhile, and are followed too
            other.tell(("path", "oslo", 2, 3))
            self.assertEqual(came.get(timeout=SECONDS), ((("path", "oslo", 2, 3),), ()))
            one.tell(("path", 1, 2, 5))
            self.assertEqual(came.get(timeout=SECONDS), ((("path", 1, 2, 5),), (("path", 1, 2, 7),)))
            self.assertTrue(following.is_alive)
            self.assertIn("alive", repr(following))
        self.assertFalse(following.is_alive)
        following.stop()
        self.assertTrue(came.empty())

    def test_what_ends_a_thread_that_follows(self) -> None:
        member = self.member(PATHS)
        member.tell(("path", 1, 2, 7))

        def fail(change: Change) -> None:
            raise ZeroDivisionError(change.came)

        with self.assertLogs("chrrep.link", "ERROR") as logged:
            with self.assertRaises(ZeroDivisionError), member.following(fail) as following:
                following._thread.join(SECONDS)
        self.assertIn("ZeroDivisionError", logged.output[0])
        with self.assertRaises(KeyError), member.following(lambda change: None) as following:
            raise KeyError
        self.assertFalse(following.is_alive)

    def test_a_node_that_does_not_answer(self) -> None:
        member = self.stack.enter_context(Member(self.link(), PATHS, timeout=1.0))
        member.tell(("path", 1, 2, 7))
        os.kill(member.pid, signal.SIGSTOP)
        with self.assertRaisesRegex(chrrep.NodeDied, "no answer within 1.0 seconds"):
            member.show()
        self.assertEqual(self.member().show(), (("path", 1, 2, 7),))

    def test_what_members_do_is_logged(self) -> None:
        one, two = self.member(MARKED), self.member()
        two.tell(("mark", 1))
        with self.assertLogs("chrrep", "INFO") as logged:
            one.snapshot()
            two.tell(("mark", 2))
            two.snapshot()
            one.upgrade(PATHS + MARKED.partition("true.")[2] + "% other")
            two.rejoin()
        self.assertEqual(len([line for line in logged.output if "snapshot 1 of the log was taken" in line]), 1)
        self.assertEqual(len([line for line in logged.output if "the log went over to another program" in line]), 2)

    def test_members_and_links_say_what_they_are(self) -> None:
        member = self.member(PATHS, 3)
        self.assertRegex(repr(member.link), "<chrrep.link.[A-Z][A-Za-z]+Link of origin 3>")
        self.assertRegex(repr(member), f"<chrrep.link.Member of origin 3: .*process {member.pid}, rules 1>")

    def test_what_is_refused_is_not_appended(self) -> None:
        member = self.member(PLAIN)
        member.tell(("a", 1))
        rows: list[tuple[type[Exception], list[Any]]] = [
            (chrrep.UnknownSymbol, [("x",)]),
            (chrrep.UnknownSymbol, [("a", 1, 2)]),
            (chrrep.Shape, []),
            (chrrep.Shape, [("a", 1)] * 65),
            (chrrep.Shape, [("a", True)]),
            (chrrep.Shape, [("a", 2**63)]),
            (chrrep.Shape, [("a", [1])]),
            (chrrep.Shape, ["a1"]),
            (chrrep.Shape, [()]),
            (chrrep.BadLine, [("a", float("nan"))]),
            (TypeError, [("a", object())]),
        ]
        for kind, atoms in rows:
            with self.subTest(atoms=atoms[:1]), self.assertRaises(kind):
                member.tell(*atoms)
        self.assertEqual(member.tell(("a", 2)), Id(member.origin, 2))
        self.assertEqual(self.ids(), [Id(member.origin, 1), Id(member.origin, 2)])
        self.assertEqual((member.refused, member.link.refused()), (0, []))

    def test_a_store_that_is_full(self) -> None:
        with patch.object(Link, "room_limit", 200):
            member = self.member(MARKED)
            for value in range(200):
                member.tell(("mark", value))
            for _ in range(2):
                with self.assertRaises(chrrep.Full):
                    member.tell(("mark", 200))
            self.assertEqual(self.ids()[-1], Id(member.origin, 200))
            self.assertEqual(len(self.member().show()), 200)

    def test_entries_that_no_node_can_take(self) -> None:
        one, writer = self.member(PLAIN, snapshot_after=8), self.link()
        texts = [
            "nonsense", "", "[]", "7", '[["b",1]]', '[["a",1.5]]', '[["a",NaN]]', '[["a",1]]]],[[[1,2],[["a",5]]',
            '[["a",1]]\n["show",1]', '[["a",[1]]]', "[" * 10_000, str([["a", 1]] * 65).replace("'", '"'), '[["é",1]]',
            json.dumps([["a" * 1_100_000, 1]]), '[["' + "[" * 1_000_000 + '",1]]', '[["a",1]] ,', "9" * 5000,
        ]  # fmt: skip
        good = [writer.entry(2 * number, [("a", number)]) for number in range(1, len(texts) + 1)]
        bad = [Entry(Id(writer.origin, 2 * at + 1), text, writer.writer) for at, text in enumerate(texts)]
        one.tell(("a", 0))
        with self.assertLogs("chrrep.link", "WARNING") as warned:
            self.put(writer, sorted(good + bad))
            other = self.member()
            for member in (one, other):
                self.assertEqual(member.show(), tuple(("a", value) for value in range(len(texts) + 1)))
                self.assertEqual(member.refused, len(texts))
        self.assertEqual(len(warned.output), 2 * len(texts))
        self.assertEqual([refused.entry for refused in one.link.refused()], bad)
        self.assertTrue(all(refused.reason for refused in one.link.refused()))
        self.assertEqual(one.tell(("a", 100)).number, 2)
        # one that begins with a snapshot of them doesn't meet them
        self.assertEqual((fresh := self.member()).show(), other.show())
        self.assertEqual(fresh.refused, 0)

    def test_out_of_order_and_twice(self) -> None:
        chance = random.Random(7)
        members = [Member(Jumbled(self.link(), chance), MARKED, snapshot_after=60) for _ in range(3)]
        for member in members:
            self.stack.callback(member.close)
        told = []
        for value in range(200):
            member = chance.choice(members)
            told.append((("path", chance.randrange(5), chance.randrange(5), chance.randrange(100)), ("mark", value)))
            member.tell(*told[-1])
            if chance.random() < 0.3:
                chance.choice(members).follow()
        wanted = store_of(MARKED, [Operation(Id(1, number), atoms) for number, atoms in enumerate(told, 1)])
        for member in members:
            self.assertEqual(member.show(), wanted)
            member.follow()
            self.assertEqual(member.show(), wanted)
        self.assertGreater(members[0].link.mark().generation, 3)

    def test_an_operation_that_is_not_seen_through(self) -> None:
        member = self.member(PLAIN, 1)
        append = member.link.append
        for number in (1, 3):

            def append_and_fail(batch: Batch) -> None:
                append(batch)
                batch.is_unsure = True
                raise LinkLost("its acknowledgement is lost")

            with patch.object(member.link, "append", append_and_fail), self.assertRaises(LinkLost):
                member.tell(("a", number))
            self.assertEqual(member.tell(("a", number + 1)), Id(1, number + 1))
        self.assertEqual(member.show(), tuple(("a", value) for value in (1, 2, 3, 4)))
        self.assertEqual(self.ids(), [Id(1, number) for number in (1, 2, 3, 4)])

    def test_a_log_that_has_lost_operations(self) -> None:
        member = self.member(PLAIN, 1)
        member.tell(("a", 1))
        with patch.object(member.link, "newest", lambda: {}), self.assertRaises(LinkLost):
            member.show()
