#!/usr/bin/env python3
"""Talks with `chrrep serve` over pipes: sends lines, waits for their answers, and only then sends the next ones.

    ./bench/served.py release/chrrep-x86_64-linux 100000 [--batch 1]

Tells lengths of one path, each less than the one before: one after another, or so many lines at once. Before that and
after it pairs of a tell and a show are timed, and in between as many rows of another symbol have died together. Writes
how many answers came in a second and what a pair takes, and ends with 1 where an answer isn't the one that is due.
"""

import argparse
import subprocess
import sys
import time
from collections.abc import Sequence

PROGRAM = """:- chr_constraint path/3, draft/1, final/0.
shorter @ path(X,Y,D) \\ path(X,Y,E) <=> D =< E | true.
only @ final \\ draft(X) <=> true.
---
"""
PAIRS = 1000
PAIRS_AT_ONCE = 100
ATOMS = 64
LENGTH = 10**9

Line = tuple[str, str]
"""What is sent, and the answer that is due."""


def expect(found: str, due: str) -> None:
    if found != due:
        sys.exit(f"served: {found!r} came, and {due!r} was due")


class Served:
    """A service, and how many paths it was told."""

    def __init__(self, program: str) -> None:
        self.node = subprocess.Popen([program, "serve"], stdin=subprocess.PIPE, stdout=subprocess.PIPE, text=True)
        assert self.node.stdin and self.node.stdout
        self.lines, self.answers, self.told = self.node.stdin, self.node.stdout, 0
        self.lines.write(PROGRAM)
        self.lines.flush()
        expect(self.answers.readline().split(",")[0], "accepted: rules 2")

    def ask(self, lines: Sequence[Line]) -> None:
        """Sends all of these, and then looks at each answer."""
        self.lines.write("".join(sent + "\n" for sent, _ in lines))
        self.lines.flush()
        for _, due in lines:
            expect(self.answers.readline(), due + "\n")

    def seconds(self, lines: Sequence[Line], batch: int) -> float:
        start = time.monotonic()
        for place in range(0, len(lines), batch):
            self.ask(lines[place:place + batch])
        return time.monotonic() - start

    def path(self) -> Line:
        self.told += 1
        return f'["tell",1,[1,{self.told}],[["path",1,2,{LENGTH - self.told}]]]', "told"

    def paths(self, count: int, batch: int) -> float:
        return self.seconds([self.path() for _ in range(count)], batch)

    def pairs(self, before: str) -> float:
        """The millionths of a second that a tell and a show take, where so much stands before the path."""
        lines = []
        for _ in range(PAIRS):
            lines += [self.path(), ('["show",1]', f"{before}path(1,2,{LENGTH - self.told})")]
        return self.seconds(lines, 2 * PAIRS_AT_ONCE) / PAIRS * 1e6

    def drafts(self, count: int) -> None:
        """So many rows live, and then die together."""
        for start in range(0, count, ATOMS):
            atoms = ",".join(f'["draft",{number}]' for number in range(start, min(start + ATOMS, count)))
            self.ask([(f'["tell",1,[2,{start}],[{atoms}]]', "told")])
        self.ask([('["tell",1,[3,1],[["final"]]]', "told"), ('["show",1]', f"final, path(1,2,{LENGTH - self.told})")])

    def end(self) -> None:
        self.lines.close()
        expect(self.answers.read(), "")
        expect(str(self.node.wait()), "0")


def main() -> None:
    words = argparse.ArgumentParser(description=__doc__, formatter_class=argparse.RawDescriptionHelpFormatter)
    words.add_argument("program")
    words.add_argument("count", type=int)
    words.add_argument("--batch", type=int, default=1)
    said = words.parse_args()
    served = Served(said.program)
    before = served.pairs("")
    seconds = served.paths(said.count, said.batch)
    served.drafts(said.count)
    after = served.pairs("final, ")
    served.end()
    way = "each awaited" if said.batch == 1 else f"awaited by {said.batch}"
    print(f"{said.count} answers, {way}, in {seconds:.2f} s: {said.count / seconds:.0f} a second")
    print(f"a tell and a show: {before:.0f} us, and {after:.0f} us after {said.count} rows died together")


if __name__ == "__main__":
    main()
