"""More operations than a node can hold, over a log in a file: room on disk and memory stay bounded.

Two processes tell, in batches, and a member here follows. The program counts what it is told in bits, so that each
operation that is lost or taken twice changes the store.
"""

import os
import subprocess
import sys
import time
import unittest
from pathlib import Path
from tempfile import TemporaryDirectory

if __name__ == "__main__":
    sys.path.insert(0, str(Path(__file__).resolve().parents[2]))

from chrrep import Atom
from chrrep.link import Member, connect, join

OPERATIONS = int(os.environ.get("CHRREP_OPERATIONS", "1000000"))
TELLERS = 2
BATCH = 1000
SECONDS = 3600.0

LOG_BYTES = 64 * 2**20
"""What the file and what stands beside it may take: a snapshot's operations twice, and SQLite's own log."""
NODE_BYTES = 256 * 2**20

BITS = 26
COUNTED = (
    f":- chr_constraint path/3, {', '.join(f'b{bit}/0' for bit in range(BITS))}.\n"
    "shorter @ path(X,Y,D) \\ path(X,Y,E) <=> D =< E | true.\n"
    + "".join(f"b{bit}, b{bit} <=> b{bit + 1}.\n" for bit in range(BITS - 1))
)


def told(teller: int, at: int) -> Atom:
    """The one atom of an operation: each tenth is a path, the others count."""
    if at % 10:
        return ("b0",)
    return ("path", at % 70, teller, (at * 7919) % 100_003)


def bits_of(counted: int) -> list[int]:
    return [bit for bit in range(BITS) if counted >> bit & 1]


def store_of_all(count: int) -> list[Atom]:
    """The store of all operations, worked out without any rules."""
    paths: dict[tuple[str | int, ...], int] = {}
    counted = 0
    for teller in range(TELLERS):
        for at in range(count):
            atom = told(teller, at)
            if atom == ("b0",):
                counted += 1
            else:
                paths[atom[:3]] = min(int(atom[3]), paths.get(atom[:3], 2**62))
    bits: list[Atom] = [(f"b{bit}",) for bit in bits_of(counted)]
    return sorted([*bits, *((*key, least) for key, least in paths.items())], key=str)


def tell(url: str, teller: int, count: int) -> None:
    with join(url, COUNTED) as member:
        for start in range(0, count, BATCH):
            member.tell_many([(told(teller, at),) for at in range(start, min(start + BATCH, count))])


def memory_of(pid: int) -> int:
    """The bytes of memory that a process has."""
    return int(Path(f"/proc/{pid}/statm").read_text().split()[1]) * os.sysconf("SC_PAGE_SIZE")


class Lasting(unittest.TestCase):
    def test_a_log_and_its_nodes_stay_small(self) -> None:
        count = OPERATIONS // TELLERS
        with TemporaryDirectory() as room:
            url = f"sqlite:///{room}/log.sqlite"
            with connect(url) as link, Member(link, COUNTED) as member:
                words = [sys.executable, "-B", __file__, url]
                tellers = [subprocess.Popen([*words, str(at), str(count)]) for at in range(TELLERS)]
                disk, memory, nodes = self.watch(member, tellers, Path(room))
                self.assertEqual([teller.wait() for teller in tellers], [0] * TELLERS)
                store = sorted(member.show(), key=str)
                generation = link.mark().generation
            with join(url) as fresh:
                self.assertEqual(sorted(fresh.show(), key=str), store)
                # it was told a store and what came after it, and not all
                self.assertLess(fresh._replica.told, 400_000)
        self.assertEqual(store, store_of_all(count))
        self.assertLess(disk, LOG_BYTES)
        self.assertLess(memory, NODE_BYTES)
        self.assertGreaterEqual(generation, OPERATIONS // 300_000)
        self.assertGreaterEqual(len(nodes), 1 + OPERATIONS // 1_100_000)
        print(f"{OPERATIONS} operations: {disk >> 20} MB on disk and {memory >> 20} MB of memory at most, ", end="")
        print(f"{len(nodes)} nodes here one after the other, {generation} snapshots")

    def test_more_atoms_than_a_node_can_be_told(self) -> None:
        """The node is renewed before it has been told 1,000,000, and counts on."""
        batches, atoms = 18, 64
        with TemporaryDirectory() as room, join(f"sqlite:///{room}/log.sqlite", COUNTED) as member:
            nodes = {member.pid}
            for _ in range(batches):
                member.tell_many([[("b0",)] * atoms] * BATCH)
                nodes.add(member.pid)
            counted = batches * BATCH * atoms
            self.assertGreater(counted, 1_000_000)
            self.assertEqual(member.show(), tuple((f"b{bit}",) for bit in sorted(bits_of(counted), key=str)))
            self.assertEqual(len(nodes), 2)

    def watch(self, member: Member, tellers: list[subprocess.Popen[bytes]], room: Path) -> tuple[int, int, set[int]]:
        """Follows while they tell, and gives the most bytes on disk and of a node that were seen, and which nodes."""
        disk = memory = 0
        nodes: set[int] = set()
        end = time.monotonic() + SECONDS
        while any(teller.poll() is None for teller in tellers) and time.monotonic() < end:
            member.follow(0.2)
            nodes.add(member.pid)
            memory = max(memory, memory_of(member.pid))
            disk = max(disk, sum(file.stat().st_size for file in room.iterdir()))
        return disk, memory, nodes


if __name__ == "__main__":
    tell(sys.argv[1], int(sys.argv[2]), int(sys.argv[3]))
