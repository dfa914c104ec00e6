"""Random inputs to all commands, beside the plain slow programs of the tests, for so many minutes:

    python3 python/tests/fuzz.py MINUTES [--processes N] [--seed SEED]

CHRREP names the program. An input is a text with command lines. Each text is given to all commands, and an accepted one
with other lines again and again to `run` or `serve`. Each difference is told, and its input is left in a temporary
folder. One seed makes the same inputs; it is told, and drawn where none is given. The last line counts inputs and
differences.
"""

import argparse
import multiprocessing
import os
import random
import resource
import secrets
import signal
import sys
import tempfile
import time
from collections import Counter
from collections.abc import Iterator
from dataclasses import dataclass, field
from pathlib import Path

HERE = Path(__file__).resolve().parent
sys.dont_write_bytecode = True
sys.path[:0] = [str(HERE.parent), str(HERE / "models"), str(HERE / "rows")]

from chrrep.node import program_path  # noqa: E402
from random_inputs import random_input, random_text  # noqa: E402
from slow_lines import output_of  # noqa: E402
from slow_verdict import TooSlow  # noqa: E402

MOST = 400
"""More lists of values of one overlap are not looked at, unless they are too many for a verdict."""

PATIENCE = 1.0
"""Processor seconds after which the slow programs are given up."""

SECONDS = 60
"""Processor seconds: the program is never as slow. It is waited for ten times as long, since a machine may be busy."""

MOST_TOLD = 20
"""Differences of one process, after which it ends."""

SETS = 16
"""How many sets of lines an accepted text is given."""

Words = tuple[str, ...]


@dataclass
class Tally:
    texts: int = 0
    inputs: int = 0
    given_up: int = 0
    kinds: Counter[str] = field(default_factory=Counter)
    differences: list[str] = field(default_factory=list)


@dataclass(frozen=True)
class Input:
    given: bytes
    replicas: int
    wide: bool

    @property
    def judged(self) -> Words:
        return ("--wide",) * self.wide

    @property
    def answered(self) -> Words:
        return ("--replicas", str(self.replicas), *self.judged)


def give_up(*_: object) -> None:
    raise TooSlow


def expected(of: Input) -> list[str] | None:
    """The lines of a run, or None where they would take too long."""
    try:
        signal.setitimer(signal.ITIMER_VIRTUAL, PATIENCE)
        lines = output_of(of.given, of.replicas, MOST, of.wide)
        signal.setitimer(signal.ITIMER_VIRTUAL, 0)
    except TooSlow:
        signal.setitimer(signal.ITIMER_VIRTUAL, 0)
        return None
    return lines


class Files:
    """The standard input, output and errors of one process after another, in memory."""

    def __init__(self) -> None:
        self.numbers = [os.memfd_create(name) for name in ("input", "output", "errors")]
        self.places = [(os.POSIX_SPAWN_DUP2, number, place) for place, number in enumerate(self.numbers)]

    def fill(self, given: bytes) -> None:
        for number in self.numbers:
            os.ftruncate(number, 0)
            os.lseek(number, 0, os.SEEK_SET)
        os.pwrite(self.numbers[0], given, 0)

    def contents(self, place: int) -> bytes:
        return os.pread(self.numbers[place], os.fstat(self.numbers[place]).st_size, 0)

    def ended(self, words: Words, given: bytes) -> tuple[int, str, bytes]:
        """What a command does with an input. To start it so costs a third of what `subprocess` takes."""
        self.fill(given)
        program = program_path()
        plain = (signal.SIGPIPE, signal.SIGINT)
        child = os.posix_spawn(program, (program, *words), os.environ, file_actions=self.places, setsigdef=plain)
        try:
            resource.prlimit(child, resource.RLIMIT_CPU, (SECONDS, SECONDS))
            signal.setitimer(signal.ITIMER_REAL, 10 * SECONDS)
            _, status = os.waitpid(child, 0)
            signal.setitimer(signal.ITIMER_REAL, 0)
        except TooSlow:
            os.kill(child, signal.SIGKILL)
            os.waitpid(child, 0)
            return -1, "", f"no end in {10 * SECONDS} seconds".encode()
        return os.waitstatus_to_exitcode(status), self.contents(1).decode(errors="replace"), self.contents(2)


def told_first(verdict: str, wide: bool) -> str:
    """A part of the first line of an explanation."""
    words = verdict.replace(":", "").replace(",", "").split()
    by = " with --wide" * wide
    if words[0] == "accepted":
        return f"accepted{by}: rules {words[2]}, "
    if "clause" in words:
        return f"clause {words[3]}, fault {words[1]}: "
    return f"{words[1]}{by * (words[1] in ('21', '22'))}: "


def explained(files: Files, of: Input, words: Words, line: str) -> Iterator[str]:
    """What an explanation doesn't do: it has the status of a check by the cases that decide, and tells its line."""
    wide = of.wide or line.startswith("refused 22")
    verdict = line if wide == of.wide else files.ended(("check", "--wide"), of.given)[1]
    end = files.ended(words, of.given)
    status = 0 if verdict.startswith("accepted") else 1
    if (end[0], end[2]) != (status, b"") or told_first(verdict, wide) not in end[1].partition("\n")[0]:
        yield f"explain: {end} of {verdict}"


def all_commands(of: Input) -> list[Words]:
    return [("check", *of.judged), ("run", *of.answered), ("serve", *of.answered), ("explain", *of.judged)]


def some_commands(chance: random.Random, of: Input, line: str, is_first: bool) -> list[Words]:
    """All for a text that is new, but one where it is refused for its many cases, which takes long."""
    if not is_first:
        return [(chance.choice(("run", "serve")), *of.answered)]
    return [chance.choice(all_commands(of))] if line.startswith("refused 22") else all_commands(of)


def faults(files: Files, of: Input, commands: list[Words], lines: list[str]) -> Iterator[str]:
    """The commands that do not do what is expected."""
    status = 0 if lines[0].startswith("accepted") else 1
    for words in commands:
        if words[0] == "explain":
            yield from explained(files, of, words, lines[0])
            continue
        end = files.ended(words, of.given)
        output = lines[:1] if words[0] == "check" else lines
        if end != (status, "".join(f"{line}\n" for line in output), b""):
            yield f"{' '.join(words)}: {end} in place of {status}, {output}"


def saved(given: bytes) -> str:
    with tempfile.NamedTemporaryFile(prefix="chrrep-fuzz-", suffix=".chr", delete=False) as file:
        file.write(given)
    return file.name


class Work:
    """What one process looks at."""

    def __init__(self) -> None:
        self.tally, self.files = Tally(), Files()

    def looks_at(self, chance: random.Random, text: bytes, wide: bool, is_first: bool) -> bool:
        """Whether the text is accepted, with lines for it."""
        replicas = chance.choice((1, 2, 2, 3, 16))
        of = Input(random_input(chance, text, replicas), replicas, wide)
        self.tally.inputs += 1
        lines = expected(of)
        if lines is None:
            self.tally.given_up += 1
            return False
        self.tally.kinds[lines[0].partition(":")[0]] += 1
        found = list(faults(self.files, of, some_commands(chance, of, lines[0], is_first), lines))
        if found:
            self.tally.differences.append(f"{saved(of.given)}: {'; '.join(found)}")
            print(f"fuzz: {self.tally.differences[-1]}", flush=True)
        return lines[0].startswith("accepted")

    def next_text(self, chance: random.Random) -> None:
        self.tally.texts += 1
        text, wide = random_text(chance), chance.random() < 0.4
        if self.looks_at(chance, text, wide, True):
            for _ in range(SETS - 1):
                self.looks_at(chance, text, wide, False)


def work(seed: str, end: float) -> Tally:
    """Inputs of one process, until the time is over."""
    sys.set_int_max_str_digits(0)
    for number in (signal.SIGVTALRM, signal.SIGALRM):
        signal.signal(number, give_up)
    signal.signal(signal.SIGINT, signal.SIG_IGN)
    own = Work()
    while time.monotonic() < end and len(own.tally.differences) < MOST_TOLD:
        own.next_text(random.Random(f"{seed}-{own.tally.texts}"))
    return own.tally


def main() -> int:
    words = argparse.ArgumentParser(description=__doc__, formatter_class=argparse.RawDescriptionHelpFormatter)
    words.add_argument("minutes", type=float)
    words.add_argument("--processes", type=int, default=multiprocessing.cpu_count())
    words.add_argument("--seed", default=secrets.token_hex(4))
    said = words.parse_args()
    print(f"fuzz: seed {said.seed}, {said.processes} processes, {said.minutes:g} minutes", flush=True)
    end = time.monotonic() + 60 * said.minutes
    with multiprocessing.Pool(said.processes) as pool:
        tallies = pool.starmap(work, [(f"{said.seed}-{number}", end) for number in range(said.processes)])
    kinds: Counter[str] = sum((it.kinds for it in tallies), Counter())
    inputs, given_up = sum(it.inputs for it in tallies), sum(it.given_up for it in tallies)
    differences = sum(len(it.differences) for it in tallies)
    print("fuzz: " + ", ".join(f"{kind} {count}" for kind, count in sorted(kinds.items())))
    print(f"fuzz: {sum(it.texts for it in tallies)} texts; {given_up} inputs would take the slow programs too long")
    print(f"{inputs - given_up} inputs, {differences} differences")
    return 1 if differences or inputs == given_up else 0


if __name__ == "__main__":
    sys.exit(main())
