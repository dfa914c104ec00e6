"""Runs whose stores are rested by several workers: what they write is what one worker writes."""

import itertools
import json
import random
import subprocess
import tempfile
import unittest
from collections.abc import Iterable, Iterator

import run_rows as rows
from chrrep.node import program_path

SECONDS = 60.0
VERDICT = "accepted: rules 1, cases 541\n"
Route = tuple[int, int, int]


def done(words: Iterable[str], given: str) -> tuple[int, str]:
    command = [program_path(), *words]
    end = subprocess.run(command, input=given.encode(), capture_output=True, timeout=SECONDS, check=False)
    return end.returncode, end.stdout.decode()


def shared(command: str, workers: int, parts: int, given: str) -> tuple[int, str]:
    """What a command with three replicas writes, with so many workers and parts."""
    return done((command, "--replicas", "3", "--workers", str(workers), "--parts", str(parts)), given)


def input_of(lines: Iterable[str]) -> str:
    return "".join(f"{line}\n" for line in (rows.PATHS_TEXT, "---", *lines))


def routes(count: int, towns: int) -> list[Route]:
    """Routes between towns, the same in each run."""
    rng = random.Random(count)
    return [(rng.randrange(towns), rng.randrange(towns), rng.randrange(10**9)) for _ in range(count)]


def tells(all_routes: list[Route], first: int) -> Iterator[str]:
    """The lines that tell replica 1 these routes, 64 in an operation."""
    for start in range(0, len(all_routes), 64):
        atoms = [["path", *route] for route in all_routes[start : start + 64]]
        yield json.dumps(["tell", 1, [1, first + start], atoms], separators=(",", ":"))


def shortest(all_routes: Iterable[Route]) -> str:
    """The store of the shortest routes, as it is shown."""
    lengths: dict[tuple[int, int], int] = {}
    for start, end, length in all_routes:
        lengths[start, end] = min(length, lengths.get((start, end), length))
    return ", ".join(f"path({start},{end},{lengths[start, end]})" for start, end in sorted(lengths))


# How many bytes come from a file at once, and are in the first block of lines; how many bytes a block has at most; how
# many lines of a block are read ahead at most; from how many bytes of a block on its reader rests its tells.
READ = 16_384
BLOCK = 524_288
MOST_LINES = 65_536
LEAST_RESTED = 131_072
MANY_ROWS = 25_600
MAX_TOLD = 1_000_000
MAX_LINE = 1_048_576
Line = tuple[str, str]


def told(number: int) -> Line:
    return f'["tell",1,[1,{number}],[["path",{number},2,3]]]', "told\n"


def mixed(count: int, seed: int) -> Iterator[Line]:
    """Lines of all kinds with their answers, of lengths that differ, some ended by a carriage return."""
    rng = random.Random(seed)
    kinds = (
        ("  \t", ""),
        ("", ""),
        ("[", "refused 30\n"),
        ('["tell",1,[1,7],[["path",1e999,2,3]]]', "refused 30\n"),
        ('["tell",1,[1,7]]', "refused 31\n"),
        ("[[],[[]]]", "refused 31\n"),
        ('["tell",1,[1,7],[["road",1]]]', "refused 32\n"),
        ('["merge",1,[[[1,8],[["path",1,2]]]]]', "refused 32\n"),
        ('["tell",1,[1,0],[["path",9,9,9]]]', "refused 33\n"),
        ('["tell",1,[1,0],[["path",0,2,3]]]', "again\n"),
        ('["tell",4,[1,0],[["path",0,2,3]]]', "refused 35\n"),
        ('["sync",2,3]', "synced 0\n"),
        ('["merge",1,[[[1,0],[["path",0,2,3]]]]]', "merged 0\n"),
        ('["summary",2]', '[]\n'),
        ('["show",3]', "true\n"),
    )
    yield told(0)
    for number in range(1, count):
        yield told(number) if rng.random() < 0.5 else kinds[rng.randrange(len(kinds))]


def ended(rows_of: Iterable[Line], seed: int) -> tuple[str, str]:
    """The lines as a text, the last one without its end, and their answers."""
    rng = random.Random(seed)
    lines, answers = zip(*rows_of)
    return "".join(line + rng.choice(("\n", "\r\n")) for line in lines)[:-1], "".join(answers)


def first_apart(output: str, wanted: str) -> tuple[int, str, str] | None:
    """The first line in which two outputs differ: outputs of this length take too long to be compared in full."""
    both = itertools.zip_longest(output.splitlines(), wanted.splitlines(), fillvalue="no line")
    return next(((number, a, b) for number, (a, b) in enumerate(both) if a != b), None)


class Workers(unittest.TestCase):
    def expect(self, command: str, workers: int, parts: int, given: str, output: str) -> None:
        with self.subTest(command=command, workers=workers, parts=parts):
            self.assertEqual(shared(command, workers, parts, given), (0, output))

    def test_three_replicas(self) -> None:
        """They exchange in a ring, and one line is cut short."""
        given = input_of(line for line, _ in rows.PATHS_OF_THREE)
        output = VERDICT + "".join(f"{answer}\n" for _, answer in rows.PATHS_OF_THREE)
        for workers in (1, 2, 16):
            for parts in (1, 3, 64):
                self.expect("run", workers, parts, given, output)

    def test_many_routes(self) -> None:
        """So many that they are rested in parts where an exchange brings them at once."""
        told = routes(20_000, 12)
        lines = [*tells(told, 1), '["sync",1,2]', '["show",2]', '["show",1]']
        shown = shortest(told)
        output = VERDICT + "told\n" * (len(lines) - 3) + f"synced {len(lines) - 3}\n{shown}\n{shown}\n"
        for workers, parts in ((1, 1), (1, 16), (4, 1), (2, 3), (4, 16), (16, 64)):
            self.expect("run", workers, parts, input_of(lines), output)
        self.expect("serve", 4, 16, input_of(lines), output)

    def test_many_rows_that_stay(self) -> None:
        """So many in no order that several threads print them."""
        rows_of: list[tuple[str, tuple[int, ...]]] = []
        for place in range(MANY_ROWS):
            value = place * 7_919 % MANY_ROWS
            rows_of.append(("b", (value, -1)) if place % 3 == 0 else ("a", (value - 5_000,)))
        atoms = [[name, *args] for name, args in rows_of]
        tells = [["tell", 1, [1, start], atoms[start : start + 64]] for start in range(0, MANY_ROWS, 64)]
        lines = [json.dumps(it, separators=(",", ":")) for it in (*tells, ["show", 1])]
        given = "".join(f"{line}\n" for line in (":- chr_constraint b/2, a/1.", "---", *lines))
        shown = ", ".join(f"{name}({','.join(map(str, args))})" for name, args in sorted(rows_of))
        output = "accepted: rules 0, cases 0\n" + "told\n" * len(tells) + f"{shown}\n"
        for workers in (1, 3, 16):
            with self.subTest(workers=workers):
                status, written = done(("run", "--workers", str(workers)), given)
                self.assertEqual((status, first_apart(written, output)), (0, None))

    def test_shows_between(self) -> None:
        """What came in before a show is rested then, and what comes after it later."""
        first, second = routes(9_000, 40), routes(5_000, 50)
        before, after = list(tells(first, 1)), list(tells(second, 1 + len(first)))
        lines = [*before, '["show",1]', '["show",1]', *after, '["show",1]', '["sync",1,2]', '["show",2]']
        answers = ["told"] * len(before) + [shortest(first)] * 2 + ["told"] * len(after)
        answers += [shortest(first + second), f"synced {len(before) + len(after)}", shortest(first + second)]
        output = VERDICT + "".join(f"{answer}\n" for answer in answers)
        for workers, parts in ((1, 1), (4, 16)):
            self.expect("run", workers, parts, input_of(lines), output)

    def expect_read(self, lines: str, answers: str) -> None:
        """Any number of workers reads these lines alike."""
        for workers in (1, 2, 4, 16):
            with self.subTest(workers=workers):
                status, output = shared("run", workers, 16, input_of(()) + lines)
                self.assertEqual((status, first_apart(output, VERDICT + answers)), (0, None))

    def test_mixed_lines(self) -> None:
        """Bad, blank and refused lines among others, in several blocks."""
        for count, seed in ((3, 1), (3_000, 2), (150_000, 3)):
            self.expect_read(*ended(mixed(count, seed), seed))

    def test_lines_at_ends_of_blocks(self) -> None:
        """Lines of a file end at each place where a block may, and up to two bytes before and behind it."""
        for far in range(-2, 3):
            given = input_of(())
            for number in range(1, 200):
                line, _ = told(number)
                given += line.ljust(number * READ + far - len(given) - 1) + "\n"
            for workers in (1, 2, 4, 16):
                with self.subTest(far=far, workers=workers), tempfile.TemporaryFile() as file:
                    file.write(given.encode())
                    file.seek(0)
                    command = [program_path(), "run", "--workers", str(workers)]
                    end = subprocess.run(command, stdin=file, capture_output=True, timeout=SECONDS, check=False)
                    self.assertEqual((end.returncode, end.stdout.decode()), (0, VERDICT + "told\n" * 199))

    def test_lines_at_cuts(self) -> None:
        """A line is a little shorter than a block, as long, and a little longer."""
        after = [told(number) for number in range(100_000)]
        for far in range(-2, 3):
            for first in ("x", " "):
                line = first * (BLOCK + far)
                rows_of = [(line, "refused 30\n" if first == "x" else ""), *after]
                self.expect_read("".join(f"{line}\n" for line, _ in rows_of), "".join(answer for _, answer in rows_of))

    def test_long_lines(self) -> None:
        """Lines that are longer than a block, up to their limit and past it, between others."""
        show, shown = '["show",2]', "true\n"
        rows_of = [told(0)]
        lengths = ((BLOCK, shown), (MAX_LINE, shown), (MAX_LINE + 1, "refused 30\n"))
        for number, (length, answer) in enumerate(lengths, 1):
            rows_of += [(show + " " * (length - len(show)), answer), told(number)]
        self.expect_read("".join(f"{line}\n" for line, _ in rows_of), "".join(answer for _, answer in rows_of))

    def test_short_lines(self) -> None:
        """More lines in a block than are read ahead, and blank ones alone."""
        count = 4 * MOST_LINES + 5
        self.expect_read("x\n" * count + '["show",1]\n', "refused 30\n" * count + "true\n")
        self.expect_read("\n" * (40 * BLOCK) + '["show",1]\n', "true\n")

    def expect_rested(self, lines: list[str], answers: list[str]) -> None:
        """So many lines that threads which read them rest what they tell."""
        given, wanted = input_of(lines), VERDICT + "".join(f"{answer}\n" for answer in answers)
        self.assertGreater(len(given), 2 * LEAST_RESTED)
        for workers in (1, 2, 4, 16):
            with self.subTest(workers=workers):
                status, output = shared("run", workers, 16, given)
                self.assertEqual((status, first_apart(output, wanted)), (0, None))

    def test_few_routes_stay(self) -> None:
        """Routes between few towns, shown in the middle and at the end."""
        first, second = routes(150_000, 12), routes(150_001, 12)
        before, after = list(tells(first, 1)), list(tells(second, 1 + len(first)))
        lines = [*before, '["show",1]', *after, '["show",1]', '["sync",1,2]', '["show",2]']
        whole = shortest(first + second)
        answers = ["told"] * len(before) + [shortest(first)] + ["told"] * len(after)
        self.expect_rested(lines, [*answers, whole, f"synced {len(before) + len(after)}", whole])

    def test_most_routes_stay(self) -> None:
        """Routes between so many towns that hardly two have the same ends."""
        told = routes(300_002, 9_000)
        lines = [*tells(told, 1), '["show",1]']
        self.expect_rested(lines, ["told"] * (len(lines) - 1) + [shortest(told)])

    def test_the_first_routes_stay(self) -> None:
        """Routes whose ends all differ, and more between few towns after them: who reads the first rests no more."""
        told = [(town, town + 1, 1) for town in range(20, 4_020)] + routes(150_003, 12)
        lines = [*tells(told, 1), '["show",1]']
        self.expect_rested(lines, ["told"] * (len(lines) - 1) + [shortest(told)])

    def test_shows_between_routes_that_are_carried_on(self) -> None:
        """What stays of a block is rested with a later one, unless it was shown in between, or the store was synced."""
        told, held = routes(250_000, 12), 0
        lines: list[str] = []
        answers: list[str] = []
        for count, line in enumerate(tells(told, 1), 1):
            lines.append(line)
            answers.append("told")
            if count in (400, 1_499, 1_500, 2_800, 3_907):
                lines.append('["show",1]')
                answers.append(shortest(told[: 64 * count]))
            if count in (1_000, 3_000):
                lines += ['["sync",1,2]', '["show",2]']
                answers += [f"synced {count - held}", shortest(told[: 64 * count])]
                held = count
        self.expect_rested(lines, answers)

    def test_stores_of_several_symbols(self) -> None:
        """Atoms of some symbols, told in no order: symbols are shown by their names, and atoms by their arguments."""
        rng = random.Random(1)
        facts: list[tuple[str | int, ...]] = [("zero",), ("zero",)]
        for number in rng.sample(range(-50_000, 50_000), 60_000):
            shapes = (("pair", number, -number), ("item", number), ("last", 3, number, 3), ("pair", 0, number))
            facts.append(shapes[number % 4])
        text = ":- chr_constraint pair/2, zero/0, item/1, last/3.\nitem(X) \\ item(X) <=> true.\n---\n"
        for start in range(0, len(facts), 64):
            text += json.dumps(["tell", 1, [1, start + 1], facts[start : start + 64]]) + "\n"
        facts.sort(key=lambda fact: (fact[0], fact[1:]))
        atoms = [f"{name}({','.join(map(str, values))})" if values else name for name, *values in facts]
        for workers in (1, 2, 4, 16):
            with self.subTest(workers=workers):
                status, output = shared("run", workers, 16, text + '["show",1]\n')
                self.assertEqual((status, first_apart(output.splitlines()[-1], ", ".join(map(str, atoms)))), (0, None))

    def test_some_are_told_again(self) -> None:
        """Operations that are held, or told twice among new ones, or under the id of another one."""
        told = routes(200_000, 12)
        lines = list(tells(told, 1))
        answers = ["told"] * len(lines)
        other = json.dumps(["tell", 1, [1, 1], [["path", 0, 0, 0]]])
        more = ((2_000, lines[1_999], "again"), (2_900, other, "refused 33"), (3_000, lines[0], "again"))
        for place, line, answer in more:
            lines.insert(place, line)
            answers.insert(place, answer)
        self.expect_rested([*lines, '["show",1]'], [*answers, shortest(told)])

    def test_several_replicas_are_told(self) -> None:
        """Runs of lines for one replica after another, and for none."""
        told = routes(250_000, 12)
        lines = list(tells(told, 1))
        places = [(place // 700) % 4 + 1 for place in range(len(lines))]
        told_to = [line.replace('"tell",1', f'"tell",{place}', 1) for line, place in zip(lines, places, strict=True)]
        answers = ["refused 35" if place > 3 else "told" for place in places]
        shown = []
        for replica in (1, 2, 3):
            mine = [told[start * 64 : start * 64 + 64] for start, place in enumerate(places) if place == replica]
            told_to.append(f'["show",{replica}]')
            shown.append(shortest(itertools.chain.from_iterable(mine)))
        self.expect_rested(told_to, answers + shown)

    def test_the_limit_of_told_atoms(self) -> None:
        """Operations that would pass it are refused, one by one, and smaller ones after them are told."""
        told = routes(MAX_TOLD + 640, 12)
        lines = [json.dumps(["tell", 1, [2, 1], [["path", 0, 0, 10**9]]]), *tells(told, 1)]
        room = (MAX_TOLD - 1) // 64
        last = json.dumps(["tell", 1, [2, 2], [["path", 0, 0, 10**9]]])
        shown = shortest([(0, 0, 10**9), *told[: room * 64]])
        answers = ["told", *["told"] * room, *["refused 34"] * (len(lines) - 1 - room), "told"]
        self.expect_rested([*lines, last, '["show",1]'], [*answers, shown])

    def test_words(self) -> None:
        """The numbers have limits, and only commands that answer lines take them."""
        words = (
            ("run", "--workers", "0"),
            ("run", "--workers", "17"),
            ("serve", "--parts", "0"),
            ("serve", "--parts", "65"),
            ("run", "--workers", "x"),
            ("run", "--workers"),
            ("check", "--workers", "2"),
            ("explain", "--parts", "2"),
        )
        for row in words:
            with self.subTest(words=row):
                self.assertEqual(done(row, input_of(())), (2, ""))


if __name__ == "__main__":
    unittest.main()
