"""What runs cost as their inputs grow: where one grows by four, its processor time may grow by twice as much at most,
so that caches which no longer hold it fail nothing. The time of each would grow by sixteen if something in the program
went through all that is there again and again. And what they cost where memory is short: a run that is refused memory
ends soon. Times of one machine are compared with each other alone. `docs/LIMITS.md` says which inputs are not near
linear."""

import os
import random
import resource
import subprocess
import tempfile
import unittest
from collections.abc import Callable, Iterable, Iterator, Sequence
from dataclasses import dataclass

from chrrep.node import program_path

TIMES = 4
"""Each input grows by so much."""

RATIO = 8.0
"""The greatest ratio by which its time may grow then, halfway on a scale of ratios between what is linear and what is
quadratic."""

FLOOR = 0.008
"""Shorter times, in seconds, are taken for this one, ten times what it takes to start the program."""

DISORDER, DISORDERED = 30.0, 10_000
"""How many times as long atoms that two orders compare may take where they come in no order as where they come in the
order of one of these, and how many atoms there are. They are put in that order before a rest; some three times are
usual."""

RUNS, MOST_RUNS = 3, 15
"""How many runs are made, of which the least time counts, and how many at most: more only where those have not shown
what is wanted."""

ROOMS = (*range(5_500, 8_000, 250), *range(8_000, 20_001, 3_000))
"""Limits of a run's address space in KB. Under the lesser ones most inputs are refused memory."""

SQUARE = 32.0
"""The greatest ratio by which the time of three heads whose guards stand apart may grow: halfway between the square and
the cube."""

SPACED, SPACED_TELLS = 1.5, 100_000
"""How many times as long tells may take with a space after each comma, as Python writes them, and of how many atoms."""

EXPLAINED, EXPLAINED_SYMBOLS = 3.0, 32
"""How many times as long as its check the explanation of an accepted program may take, and the number of its symbols,
with two rules each. It has more than 800,000 joint cases."""

THREAD_ROOMS = (16_000, 66_000, 131_000, 200_000, 300_000)
"""Limits under which the threads of a verdict get no heaps of their own, or not all of them do."""

MORE_TIMES, MORE_SECONDS = 3.0, 0.1
"""How many times as long as without a limit a run may take under each of them, and how many seconds more."""

SHOWN = 200_000
"""How many atoms are told, and shown or not."""

BYTES_SHOWN = 48
"""How many bytes more an atom of one argument may take where it is shown, some 11 of its text among them, and 24 where
the arguments are first put in order. A bag of atoms would take 64 alone."""

LINES, ROOM_OF_ONE, ROOM_OF_TWO = 80_000, 16_000, 60_000
"""The number of lines of 1,000 bytes of a run, and the KB of address space that it gets, by one worker and by two."""

LONGEST = 10
"""The seconds of processor time after which a run is ended."""

WANT_OF_MEMORY = 4

SAME = ":- chr_constraint a/1. a(X) \\ a(X) <=> true."
ROUTES = ":- chr_constraint p/2. p(X,Y) \\ p(X,Z) <=> Y =< Z | true."
PATHS = ":- chr_constraint path/3. path(X,Y,D) \\ path(X,Y,E) <=> D =< E | true."
MINIMUM = ":- chr_constraint min/1. min(X) \\ min(Y) <=> X =< Y | true."
PLAIN = ":- chr_constraint a/1."
REACH = (
    ":- chr_constraint edge/2, seen/1, unseen/1. :- chr_weight unseen/1 = 2. "
    "edge(X,Y), seen(X) \\ unseen(Y) <=> seen(Y)."
)
UNEQUAL = ":- chr_constraint keep/2, item/2. keep(K,V) \\ item(K,W) <=> V =\\= W | true."
RECTANGLE = ":- chr_constraint lim/2, pt/2. lim(X,Y) \\ pt(A,B) <=> A > X, B > Y | true."
RULES = ":- chr_constraint k/2. " + " ".join(f"k({k},X) \\ k({k},X) <=> true." for k in range(64))
THREES = ":- chr_constraint a/1, b/1, c/1. a(X), b(X), c(X) <=> true."
FOURS = ":- chr_constraint a/1, b/1, c/1, d/1. a(X), b(X), c(X), d(X) <=> true."
CROSSED = ":- chr_constraint a/3. " + " ".join(
    f"a(A,B,C) \\ a(A,D,E) <=> B < D, C > E, A > {k} | true." for k in range(4)
)
DRAFTS = ":- chr_constraint draft/1, final/0. final \\ draft(X) <=> true."
STAIRS = ":- chr_constraint p/2. p(X,Y) \\ p(Z,W) <=> X =< Z, Y =< W | true."
STEEPER = ":- chr_constraint p/3. p(K,X,A) \\ p(K,Y,B) <=> X < Y, A > B | true."
NEVER = ":- chr_constraint a/0. a, a, a <=> 1 > 2 | a, a."
BETWEEN = ":- chr_constraint a/2, b/2, c/2. a(K,X), b(K,Y) \\ c(K,Z) <=> X < Z, Z < Y | true."
HALVES = 16

Atoms = Iterable[tuple[str, tuple[int, ...]]]
EACH = 50
"""Atoms of an operation."""


def atom_text(name: str, values: tuple[int, ...]) -> str:
    return f'["{name}"{"".join(f",{value}" for value in values)}]'


def tells(atoms: Atoms) -> Iterator[str]:
    texts = [atom_text(*atom) for atom in atoms]
    for place in range(0, len(texts), EACH):
        yield f'["tell",1,[1,{place // EACH}],[{",".join(texts[place : place + EACH])}]]'


def shown(text: str, atoms: Atoms) -> str:
    return "\n".join([text, "---", *tells(atoms), '["show",1]', ""])


def random_keys(count: int) -> str:
    chance = random.Random(count)
    return shown(SAME, (("a", (chance.randrange(-(2**63), 2**63),)) for _ in range(count)))


def keys_in_a_row(count: int) -> str:
    return shown(SAME, (("a", (key,)) for key in range(count)))


def doubled_keys(count: int) -> str:
    return shown(SAME, (("a", (key // 2,)) for key in range(count)))


def unfolded(word: int, places: int) -> int:
    """The word of which this one comes by folding its high bits down by `places` places."""
    found = word
    for _ in range(64 // places):
        found = word ^ (found >> places)
    return found


def chosen_keys(count: int) -> str:
    """Keys that would all meet in one place of an index whose hash had no seed of its own in each process: by the
    finalizer of SplitMix64, taken back, their low halves would be equal under the seed that stands in the sources."""
    words = 2**64

    def key(high: int) -> int:
        once = unfolded(high << 32 | 12_345, 31) * pow(0x94D049BB133111EB, -1, words) % words
        twice = unfolded(once, 27) * pow(0xBF58476D1CE4E5B9, -1, words) % words
        value = unfolded(twice, 30) ^ 0x2545F4914F6CDD1D
        return value - words if value >= words // 2 else value

    return shown(SAME, (("a", (key(high),)) for high in range(count)))


def routes(count: int) -> str:
    """The least of fifty under each of many keys."""
    return shown(ROUTES, (("p", (key // 50, key * 7919 % count)) for key in range(count)))


def falling(count: int) -> str:
    """Each atom that comes takes the last one out."""
    return shown(MINIMUM, (("min", (-key,)) for key in range(count)))


def links_of_one_node(count: int) -> str:
    """One node links to all others, and is seen last: one atom fires again and again, and is kept."""
    atoms = [("unseen", (key,)) for key in range(1, count)] + [("edge", (0, key)) for key in range(1, count)]
    return shown(REACH, [*atoms, ("seen", (0,))])


def one_that_is_kept(count: int) -> str:
    """One atom takes all others of its key out, since their values are not its own."""
    return shown(UNEQUAL, [*(("item", (0, key)) for key in range(1, count)), ("keep", (0, 0))])


def equal_values(count: int) -> str:
    """All values of a key are the one that is kept, so that none is another."""
    return shown(UNEQUAL, (("keep" if key % 2 else "item", (1, 7)) for key in range(count)))


def stairs(count: int) -> str:
    """Of any two atoms one is less in one column, and the other in the other: all stay."""
    return shown(STAIRS, (("p", (key, count - key)) for key in range(count)))


def stairs_in_disorder(count: int) -> str:
    steps = [("p", (key, count - key)) for key in range(count)]
    random.Random(count).shuffle(steps)
    return shown(STAIRS, steps)


def crossed_orders(count: int) -> str:
    """Under one key both columns rise together, and no two atoms are in orders that cross."""
    return shown(STEEPER, (("p", (1, key, key)) for key in range(count)))


def one_limit(count: int) -> str:
    """One limit of two orders takes all others out."""
    return shown(RECTANGLE, [*(("pt", (key, count - key)) for key in range(count)), ("lim", (-1, -1))])


def rules_of_one_symbol(count: int) -> str:
    return shown(RULES, (("k", (key % 64, key * 7919 % (count // 8))) for key in range(count)))


def three_heads(count: int) -> str:
    """All under one key, and of one head there is none, so that no two of the others help."""
    return shown(THREES, (("ab"[key % 2], (7,)) for key in range(count)))


def four_heads(count: int) -> str:
    return shown(FOURS, (("abc"[key % 3], (7,)) for key in range(count)))


def never(count: int) -> str:
    """Equal atoms under a guard that never holds."""
    return shown(NEVER, [("a", ())] * count)


def between(count: int) -> str:
    """Under one key each a is above each b, in no order, so that no c is between an a below it and a b above it."""
    chance = random.Random(count)
    places = [chance.randrange(10**6) for _ in range(count)]
    least = {"a": 10**6, "b": 0, "c": 5 * 10**5}
    return shown(BETWEEN, (("abc"[key % 3], (1, least["abc"[key % 3]] + place)) for key, place in enumerate(places)))


def ring(count: int) -> str:
    """Eight replicas are told paths, and exchange them round a ring, twice."""
    chance, lines = random.Random(count), []
    for place in range(count):
        replica, number = place % 8 + 1, place // 8 + 1
        path = (chance.randrange(300), chance.randrange(300), chance.randrange(10**9))
        lines.append(f'["tell",{replica},[{replica},{number}],[{atom_text("path", path)}]]')
    lines += [f'["sync",{replica},{replica % 8 + 1}]' for replica in range(1, 9)] * 2
    return "\n".join([PATHS, "---", *lines, '["show",1]', ""])


def passed_on(numbers: range) -> str:
    """Each operation is passed on at once."""
    rows = (f'["tell",1,[1,{number}],[["min",3]]]\n["sync",1,2]\n' for number in numbers)
    return f"{MINIMUM}\n---\n{''.join(rows)}"


def exchanges(count: int) -> str:
    """Ids in a row."""
    return passed_on(range(count))


def exchanges_with_gaps(count: int) -> str:
    """Each second id."""
    return passed_on(range(0, 2 * count, 2))


def one_merge(count: int) -> str:
    """All operations stand in one line."""
    delta = ",".join(f'[[1,{number}],[["a",{number % 7}]]]' for number in range(count))
    return f'{PLAIN}\n---\n["merge",1,[{delta}]]\n["lacks",1,[]]\n'


def refused_merge(count: int) -> str:
    """All operations of one line are new but the last, whose id stands for another bag, so that all are taken back."""
    told = "\n".join(f'["tell",1,[1,{number}],[["a",0]]]' for number in range(count))
    delta = ",".join(f'[[1,{count + number}],[["a",0]]]' for number in range(count))
    return f'{PLAIN}\n---\n{told}\n["merge",1,[{delta},[[1,0],[["a",1]]]]]\n["summary",1]\n'


def halved(count: int) -> str:
    """Few atoms become many, step by step: each of them two lighter ones, sixteen times."""
    names = [f"b{place}/0" for place in range(HALVES + 1)]
    weights = [f":- chr_weight {name} = {2 ** (place + 1) - 1}." for place, name in enumerate(names)]
    rules = [f"b{place} <=> b{place - 1}, b{place - 1}." for place in range(1, HALVES + 1)]
    text = " ".join([f":- chr_constraint {', '.join(names)}.", *weights, *rules])
    return shown(text, [(f"b{HALVES}", ())] * count)


def shows_after_deaths(count: int) -> str:
    """One fact takes all others, and what it leaves is shown again and again."""
    atoms: list[tuple[str, tuple[int, ...]]] = [("draft", (number,)) for number in range(count)]
    shows = ['["show",1]'] * (count // 4)
    return "\n".join([DRAFTS, "---", *tells([*atoms, ("final", ())]), *shows, ""])


def best_of_each(count: int) -> str:
    """`count` symbols, and of each the greatest value of a key is kept, with all that tie."""
    symbols = [f"b{number}" for number in range(count)]
    rules = " ".join(
        f"{it}(K,X,T) \\ {it}(K,X,T) <=> true. {it}(K,X,T) \\ {it}(K,Y,U) <=> X > Y | true." for it in symbols
    )
    return f":- chr_constraint {', '.join(f'{it}/3' for it in symbols)}. {rules}"


def long_text(count: int) -> str:
    """Far too long, and read to its end."""
    return "a" * count


@dataclass(frozen=True)
class Input:
    """So that its smaller one takes 8 to 90 ms on one processor, and whether a line is refused."""

    of: Callable[[int], str]
    size: int
    words: tuple[str, ...] = ("run",)
    status: int = 0
    refused: bool = False


INPUTS = (
    Input(random_keys, 20_000),
    Input(keys_in_a_row, 20_000),
    Input(doubled_keys, 20_000),
    Input(chosen_keys, 20_000),
    Input(routes, 20_000),
    Input(falling, 20_000),
    Input(links_of_one_node, 10_000),
    Input(one_that_is_kept, 20_000),
    Input(equal_values, 20_000),
    Input(stairs, 20_000, ("run", "--wide")),
    Input(crossed_orders, 20_000, ("run", "--wide")),
    Input(one_limit, 20_000, ("run", "--wide")),
    Input(rules_of_one_symbol, 5_000),
    Input(three_heads, 20_000),
    Input(four_heads, 20_000),
    Input(never, 20_000),
    Input(ring, 4_000, ("run", "--replicas", "8")),
    Input(exchanges, 10_000, ("run", "--replicas", "2")),
    Input(exchanges_with_gaps, 10_000, ("run", "--replicas", "2")),
    Input(one_merge, 10_000),
    Input(refused_merge, 10_000, refused=True),
    Input(halved, 2),
    Input(shows_after_deaths, 20_000),
    Input(long_text, 20_000_000, ("check",), status=1),
)


@dataclass(frozen=True)
class End:
    """How a run ended, what it wrote, and its processor time."""

    status: int
    output: bytes
    seconds: float


def run_of(words: Sequence[str], given: str, room: int | None = None) -> End:
    """One run, under a limit of its memory where one is given."""

    def limit() -> None:
        resource.setrlimit(resource.RLIMIT_CPU, (LONGEST, LONGEST))
        if room is not None:
            resource.setrlimit(resource.RLIMIT_AS, (room * 1024, room * 1024))

    with tempfile.TemporaryFile() as file, tempfile.TemporaryFile() as told:
        file.write(given.encode())
        file.seek(0)
        started = subprocess.Popen([program_path(), *words], stdin=file, stdout=told, preexec_fn=limit)
        _, status, used = os.wait4(started.pid, 0)
        started.returncode = os.waitstatus_to_exitcode(status)
        told.seek(0)
        return End(started.returncode, told.read(), float(used.ru_utime + used.ru_stime))


def most_memory(pid: int) -> int:
    """The most memory that a process has had up to now, in KB."""
    with open(f"/proc/{pid}/status", encoding="ascii") as status:
        return next(int(line.split()[1]) for line in status if line.startswith("VmHWM:"))


def seconds(of: Input, given: str) -> float:
    """The processor time of one run, in which a line is refused or none, as is said of it."""
    end = run_of(of.words, given)
    assert (end.status, b"\nrefused" in end.output) == (of.status, of.refused), of
    return end.seconds


class Costs(unittest.TestCase):
    def growth(self, of: Input, most_growth: float = RATIO) -> float:
        """By how much the time grows, as the least times of ever more runs show it."""
        small, large = of.of(of.size), of.of(TIMES * of.size)
        least, most, growth = 60.0, 60.0, 60.0
        for run in range(1, MOST_RUNS + 1):
            least, most = min(least, seconds(of, small)), min(most, seconds(of, large))
            growth = most / max(least, FLOOR)
            if run >= RUNS and growth <= most_growth:
                break
        return growth

    def test_times_of_inputs_that_grow(self) -> None:
        told = []
        for of in INPUTS:
            name = of.of.__name__
            growth = self.growth(of)
            told.append(f"{name} {growth:.2f}")
            with self.subTest(name, size=of.size):
                self.assertLessEqual(growth, RATIO)
        print(f"(grown by {', '.join(told)})", end=" ", flush=True)

    def test_three_heads_whose_guards_stand_apart(self) -> None:
        growth = self.growth(Input(between, 600, ("run", "--wide")), SQUARE)
        self.assertLessEqual(growth, SQUARE)
        print(f"(grown by {growth:.2f})", end=" ", flush=True)

    def test_atoms_that_come_in_no_order(self) -> None:
        given = stairs(DISORDERED), stairs_in_disorder(DISORDERED)
        ordered, disordered = (
            min((run_of(("run", "--wide"), text) for _ in range(RUNS)), key=lambda end: end.seconds) for text in given
        )
        self.assertEqual((ordered.status, disordered.status), (0, 0))
        self.assertEqual(ordered.output.splitlines()[-1], disordered.output.splitlines()[-1])
        self.assertLessEqual(disordered.seconds, DISORDER * max(ordered.seconds, FLOOR))

    def test_lines_with_spaces(self) -> None:
        text, lines = routes(SPACED_TELLS).split("---", 1)
        given = "---".join((text, lines)), "---".join((text, lines.replace(",", ", ")))
        plain, spaced = (
            min((run_of(("run",), one) for _ in range(RUNS)), key=lambda end: end.seconds) for one in given
        )
        self.assertEqual((plain.status, plain.output), (spaced.status, spaced.output))
        self.assertLessEqual(spaced.seconds, SPACED * max(plain.seconds, FLOOR))
        print(f"({spaced.seconds / max(plain.seconds, FLOOR):.2f})", end=" ", flush=True)

    def test_an_accepted_program_is_explained(self) -> None:
        given = best_of_each(EXPLAINED_SYMBOLS)
        checked, explained = (
            min((run_of((command,), given) for _ in range(RUNS)), key=lambda end: end.seconds)
            for command in ("check", "explain")
        )
        self.assertEqual((checked.status, checked.output), (0, b"accepted: rules 64, cases 830464\n"))
        self.assertEqual(explained.status, 0)
        self.assertLessEqual(explained.seconds, EXPLAINED * max(checked.seconds, FLOOR))
        print(f"({explained.seconds / max(checked.seconds, FLOOR):.2f})", end=" ", flush=True)

    def bytes_shown(self, values: Iterable[int]) -> float:
        """How many bytes of memory a service takes more than ever before, for each atom that it shows."""
        told = list(tells(("a", (value,)) for value in values))
        with subprocess.Popen([program_path(), "serve"], stdin=subprocess.PIPE, stdout=subprocess.PIPE) as service:
            assert service.stdin and service.stdout
            service.stdin.write("\n".join([PLAIN, "---", *told, ""]).encode())
            service.stdin.flush()
            answers = [service.stdout.readline() for _ in ("accepted", *told)]
            before = most_memory(service.pid)
            service.stdin.write(b'["show",1]\n')
            service.stdin.flush()
            store = service.stdout.readline()
            after = most_memory(service.pid)
            service.stdin.close()
        self.assertEqual((answers[-1], store.count(b"a("), service.wait()), (b"told\n", SHOWN, 0))
        return (after - before) * 1024 / SHOWN

    def test_memory_of_what_is_shown(self) -> None:
        equal = self.bytes_shown([100_000] * SHOWN)
        apart = self.bytes_shown(range(100_000, 100_000 + SHOWN))
        self.assertLessEqual(equal, BYTES_SHOWN)
        self.assertLessEqual(apart, BYTES_SHOWN)
        print(f"({equal:.0f} and {apart:.0f} bytes an atom)", end=" ", flush=True)


class ShortMemory(unittest.TestCase):
    def fault(self, free: End, words: Sequence[str], given: str, room: int) -> tuple[int, str]:
        """The status under a limit of memory, and what is wrong with how the run ended."""
        end, most = run_of(words, given, room), MORE_TIMES * free.seconds + MORE_SECONDS
        for _ in range(RUNS):
            if end.seconds > most and end.seconds < LONGEST / 2:
                end = min(end, run_of(words, given, room), key=lambda one: one.seconds)
        if end.seconds > most:
            return end.status, f"{end.seconds:.2f} s, and {free.seconds:.2f} s with ample memory"
        if end.status == free.status:
            return end.status, "" if end.output == free.output else "another output"
        written = end.output if words[0] == "serve" else b""
        right = end.status == WANT_OF_MEMORY and end.output == written and free.output.startswith(written)
        return end.status, "" if right else f"status {end.status}, {len(end.output)} bytes"

    def test_runs_under_limits_of_memory_end_soon(self) -> None:
        refused = 0
        for of in INPUTS:
            given = of.of(of.size)
            for words in (of.words,) if of.words[0] == "check" else (of.words, ("serve", *of.words[1:])):
                free = min((run_of(words, given) for _ in range(RUNS)), key=lambda end: end.seconds)
                for room in ROOMS:
                    status, fault = self.fault(free, words, given, room)
                    refused += status == WANT_OF_MEMORY
                    with self.subTest(of.of.__name__, words=words, room=room):
                        self.assertEqual(fault, "")
        self.assertGreater(refused, 0)
        print(f"({refused} runs ended for want of memory)", end=" ", flush=True)

    def test_a_run_holds_some_lines_alone(self) -> None:
        """Blank lines, refused ones and a long one, of more bytes than there is room, by one worker and by two."""
        given = f"{PLAIN}\n---\n" + f"{' ' * 999}\n{'x' * 999}\n" * (LINES // 2) + " " * 10**6
        wanted = b"accepted: rules 0, cases 0\n" + b"refused 30\n" * (LINES // 2)
        for workers, room in ((1, ROOM_OF_ONE), (2, ROOM_OF_TWO)):
            with self.subTest(workers=workers):
                self.assertLess(room * 1024, len(given))
                end = run_of(("run", "--workers", str(workers)), given, room)
                self.assertEqual((end.status, end.output == wanted), (0, True))

    def test_verdicts_of_threads_under_limits_of_memory_end_soon(self) -> None:
        words = ("check", "--wide")
        free = min((run_of(words, CROSSED) for _ in range(RUNS)), key=lambda end: end.seconds)
        self.assertEqual((free.status, free.output), (0, b"accepted: rules 4, cases 240\n"))
        for room in THREAD_ROOMS:
            with self.subTest(room=room):
                self.assertEqual(self.fault(free, words, CROSSED, room), (0, ""))


if __name__ == "__main__":
    unittest.main()
