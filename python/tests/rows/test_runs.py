"""Whole runs: what `run` writes for an input, and `serve` too, of which `check` writes the first line."""

import json
import subprocess
import unittest
from collections.abc import Iterable, Sequence

import run_rows as rows
from chrrep.node import program_path

SECONDS = 60.0
NOTHING = "accepted: rules 0, cases 0\n"


def written(words: Sequence[str], given: bytes) -> tuple[int, str]:
    end = subprocess.run([program_path(), *words], input=given, stdout=subprocess.PIPE, timeout=SECONDS, check=False)
    return end.returncode, end.stdout.decode()


def input_of(text: str, lines: Iterable[str]) -> str:
    """A program text, the line `---` and the lines."""
    return "".join(f"{line}\n" for line in (text, "---", *lines))


def tell(number: int, atoms: Iterable[Sequence[str | int]]) -> str:
    """The line that tells replica 1 an operation."""
    return json.dumps(["tell", 1, [1, number], list(atoms)], separators=(",", ":"))


def told(number: int, count: int) -> str:
    return tell(number, [["a"]] * count)


NUMBERS = range(10, 74)
SIGNS = ("<", "=<", ">", ">=", "=:=", "=\\=", "<", ">=")


def full_rule(one: int, other: int) -> str:
    """A rule of four heads with 24 variables, eight comparisons, and a body of eight atoms."""
    places = iter(range(1, 25))
    heads = [f"constraint_{it}({','.join(f'V{next(places)}' for _ in range(6))})" for it in (one, other, one, other)]
    guard = ", ".join(f"-92233720368547757{one} {sign} V{place}" for place, sign in enumerate(SIGNS, 1))
    body = ", ".join(
        f"constraint_{other}(V{it},92233720368547757{one},-92233720368547757{other},V{it + 8},V{it + 16},{it})"
        for it in range(1, 9)
    )
    return f"rule_with_parts_{one} @ {heads[0]}, {heads[1]} \\ {heads[2]}, {heads[3]} <=> {guard} | {body}.\n"


def full_text() -> str:
    """A text of 64 symbols with six arguments and a weight each, and of as many rules."""
    declared = ", ".join(f"constraint_{number}/6" for number in NUMBERS)
    weights = "".join(f":- chr_weight constraint_{number}/6 = {number},1000000.\n" for number in NUMBERS)
    others = (*NUMBERS[1:], NUMBERS[0])
    rules = "".join(full_rule(one, other) for one, other in zip(NUMBERS, others))
    return f":- chr_constraint {declared}.\n{weights}{rules}"


class Runs(unittest.TestCase):
    def written(self, words: Sequence[str], given: bytes) -> tuple[int, str]:
        """The status and the output of a command."""
        return written(words, given)

    def expect(self, given: str | bytes, output: str, *options: str) -> None:
        """A program is accepted where the first line says so."""
        given = given if isinstance(given, bytes) else given.encode()
        status = 0 if output.startswith("accepted: ") else 1
        with self.subTest(given=given[:200], output=output[:100]):
            for command in ("run", "serve"):
                self.assertEqual(self.written((command, *options), given), (status, output))
            self.assertEqual(self.written(("check",), given), (status, output.partition("\n")[0] + "\n"))

    def expect_all(self, table: Iterable[tuple[str | bytes, str]]) -> None:
        for given, output in table:
            self.expect(given, output)

    def expect_answers(self, table: Iterable[tuple[str, Sequence[str], str]]) -> None:
        for text, lines, output in table:
            self.expect(input_of(text, lines), output)

    def expect_rows(self, replicas: int, text: str, verdict: str, table: Iterable[tuple[str, str]]) -> None:
        """Each line stands beside its answer. An empty line has none."""
        table = list(table)
        answers = "".join(f"{answer}\n" for line, answer in table if line)
        self.expect(input_of(text, [line for line, _ in table]), f"{verdict}\n{answers}", "--replicas", str(replicas))


class Programs(Runs):
    def test_texts(self) -> None:
        self.expect_all(rows.ACCEPTED_TEXTS)
        self.expect_all(rows.ODD_BYTES)

    def test_faults(self) -> None:
        """The least number counts in a clause, and the first clause with a fault."""
        self.expect_all(rows.FAULTS)
        self.expect_all(rows.FAULTS_BESIDE_OTHERS)
        self.expect_all(rows.REFUSED_WEIGHTS)
        self.expect_all(((":- chr_constraint a/5.", NOTHING), (":- chr_constraint a/7.", "refused 7: clause 1\n")))

    def test_faults_of_clauses(self) -> None:
        self.expect_all(rows.FAULTS_OF_DIRECTIVES)
        for clause, fault in rows.FAULTS_OF_RULES:
            self.expect(f":- chr_constraint a/0, a/1. {clause}. \x07.", f"refused {fault}: clause 2\n")
        for weights, output in rows.SEVERAL_WEIGHT_CLAUSES:
            self.expect(f":- chr_constraint a/0, a/1. :- chr_weight {weights}.", output)

    def test_sixty_four_symbols_and_rules(self) -> None:
        """As many as there may be. Each two of these rules overlap once, and each with its own copy."""
        symbols = ", ".join(f"a{number}/0" for number in range(64))
        text = f":- chr_constraint {symbols}." + "a0 <=> true." * 64
        for clause, fault in rows.AFTER_SIXTY_FOUR:
            self.expect(f"{text}{clause}.", f"refused {fault}: clause 66\n")
        rest = ":- use_module(library(chr)). :- chr_weight a63/0 = 2."
        self.expect(text + rest, f"accepted: rules 64, cases {64 * 65 // 2}\n")

    def test_the_fullest_text(self) -> None:
        """As many parts as a program may have, in a text as long as one may be. The first rule takes two atoms away, of
        the weights 10 and 11, and leaves eight of the second kind."""
        text = full_text()
        self.assertLess(65_000, len(text))
        refused = "refused 20: rule 1; before 21,2000000; after 88,8000000\n"
        self.expect(text.ljust(65_536), refused)
        self.expect(text.ljust(65_537), "refused 2\n")

    def test_long_texts(self) -> None:
        """A text has at most 65,536 bytes, with the line feed before the line `---`."""
        self.expect_all((" " * spaces + rest, output) for spaces, rest, output in rows.LONG_TEXTS)

    def test_not_lowered(self) -> None:
        """Both numbers of weights are told where the second one of some symbol is not 0."""
        self.expect_all(rows.NOT_LOWERED)
        for weights, rules, output in rows.NOT_LOWERED_BY_PAIRS:
            self.expect(f":- chr_constraint a/0, b/0, c/0. :- chr_weight {weights}. {rules}", output)

    def test_weights_of_a_coin(self) -> None:
        """The first number decides, and the second one where the first are equal."""
        rules = "throw <=> head. throw <=> tail."
        failing = "refused 21: rules 1 2; matching (1); store throw; left head; right tail\n"
        for throw, side, lowers in rows.WEIGHTS_OF_A_COIN:
            weights = ((name, side) for name in ("head", "tail"))
            clauses = " ".join(f":- chr_weight {name}/0 = {it}." for name, it in (("throw", throw), *weights))
            output = failing if lowers else f"refused 20: rule 1; before {throw}; after {side}\n"
            self.expect(f":- chr_constraint throw/0, head/0, tail/0. {clauses} {rules}", output)

    def test_accepted(self) -> None:
        self.expect_all(rows.ACCEPTED)

    def test_refused(self) -> None:
        """No command is answered."""
        for text, output in (*rows.FAILING_CASES, *rows.TOO_MANY_TYPES):
            self.expect(input_of(text, ['["show",1]', "x"]), output)


class Stores(Runs):
    def test_rested(self) -> None:
        self.expect_answers(rows.RESTED)
        self.expect_answers(rows.LOWERED_BY_PAIRS)

    def test_operations(self) -> None:
        """An operation is told once, whatever the order of its atoms."""
        self.expect_answers(rows.OPERATIONS)

    def test_six_arguments(self) -> None:
        text = ":- chr_constraint r/6. r(A,B,C,D,E,F), r(A,B,C,D,E,F) <=> r(A,B,C,D,E,F)."
        lines = (
            '["tell",1,[1,1],[["r",1,2,3,4,5,6],["r",1,2,3,4,5,6]]]',
            '["tell",1,[1,2],[["r",1,2,3,4,5,6,7]]]',
            '["show",1]',
        )
        self.expect(input_of(text, lines), "accepted: rules 1, cases 28098\ntold\nrefused 32\nr(1,2,3,4,5,6)\n")

    def test_many_atoms(self) -> None:
        """Each of 10,240 atoms is shown; as many coins are 5,120 notes."""
        answers = "told\n" * 160
        lines = [tell(number, (["a", number * 64 + place] for place in range(64))) for number in range(160)]
        shown = ", ".join(f"a({number})" for number in range(10_240))
        self.expect(input_of(rows.ONE_TEXT, [*lines, '["show",1]']), f"{NOTHING}{answers}{shown}\n")
        coins = [tell(number, [["coin"]] * 64) for number in range(160)]
        text = ":- chr_constraint coin/0, note/0.\ncoin, coin <=> note."
        notes = ", ".join(["note"] * 5_120)
        self.expect(input_of(text, [*coins, '["show",1]']), f"accepted: rules 1, cases 6\n{answers}{notes}\n")


class Lines(Runs):
    def test_forms_that_are_read(self) -> None:
        for line in rows.FORMS_THAT_ARE_READ:
            given = input_of(":- chr_constraint min/1.", [line, '["show",1]', '["sh\\u006fw",1]'])
            self.expect(given, f"{NOTHING}told\nmin(5)\nmin(5)\n")

    def test_bad_lines(self) -> None:
        """Lines that are no JSON value."""
        for line in (*rows.BAD_LINES, "[" * 128 + "]" * 128):
            self.expect(input_of("", [line, '["show",1]']), f"{NOTHING}refused 30\ntrue\n")
        self.expect(b'---\n"\xff"\n["\xc3",1]\n["show",1]\n', f"{NOTHING}refused 30\nrefused 30\ntrue\n")

    def test_other_shapes(self) -> None:
        for line in (*rows.OTHER_SHAPES, "[" * 127 + "]" * 127):
            self.expect(input_of("", [line, '["show",1]']), f"{NOTHING}refused 31\ntrue\n")
        for line in rows.OTHER_SHAPES_OF_TELL:
            self.expect(input_of(":- chr_constraint min/1.", [line, '["show",1]']), f"{NOTHING}refused 31\ntrue\n")

    def test_where_texts_and_lines_end(self) -> None:
        self.expect_all(rows.DIVIDERS)
        self.expect_all(rows.LINE_ENDS)

    def test_long_lines(self) -> None:
        """A line has at most 1,048,576 bytes, without its end; a blank one any number."""
        for start, spaces, end, output in rows.LONG_LINES:
            self.expect(f"---\n{start}{' ' * spaces}{end}", output)

    def test_refused_lines_change_nothing(self) -> None:
        """A store is shown before and after the line. The line's id is still free, or has the atoms that it had."""
        before = ('["tell",1,[1,1],[["min",7]]]', '["show",1]')
        after = ('["show",1]', before[0], '["tell",1,[1,2],[["min",8]]]', '["show",1]')
        for line, number in rows.REFUSED_LINES:
            given = input_of(":- chr_constraint min/1.", (*before, line, *after))
            answers = f"told\nmin(7)\nrefused {number}\nmin(7)\nagain\ntold\nmin(7), min(8)\n"
            self.expect(given, f"{NOTHING}{answers}")


class Limits(Runs):
    def test_large_operations(self) -> None:
        """At most 64 atoms are told at once."""
        given = input_of(":- chr_constraint a/0.", [told(1, 64), told(2, 65)])
        self.expect(given, f"{NOTHING}told\nrefused 31\n")

    def test_told_atoms(self) -> None:
        """A replica is told at most 1,000,000 atoms."""
        full = [(told(number, 64), "told") for number in range(15_624)]
        table = (
            (told(20_000, 63), "told"),
            (told(20_001, 2), "refused 34"),
            (told(20_001, 1), "told"),
            (told(20_002, 1), "refused 34"),
            (told(20_001, 1), "again"),
            (told(20_001, 2), "refused 33"),
            ('["merge",1,[[[2,1],[["a"]]]]]', "refused 34"),
            ('["merge",1,[[[1,20001],[["a"]]]]]', "merged 0"),
            ('["tell",2,[2,2],[["a"]]]', "told"),
            ('["sync",2,1]', "refused 34"),
            ('["show",2]', "a"),
        )
        self.expect_rows(2, ":- chr_constraint a/0.", NOTHING.rstrip(), [*full, *table])


class Replicas(Runs):
    def test_minima_of_two(self) -> None:
        self.expect_rows(2, rows.MINIMUM_TEXT, "accepted: rules 1, cases 17", rows.MINIMA_OF_TWO)

    def test_paths_of_three(self) -> None:
        """They exchange in a ring."""
        self.expect_rows(3, rows.PATHS_TEXT, "accepted: rules 1, cases 541", rows.PATHS_OF_THREE)

    def test_a_merge_that_clashes(self) -> None:
        """A merge is whole, or takes nothing in."""
        self.expect_rows(1, rows.MINIMUM_TEXT, "accepted: rules 1, cases 17", rows.A_MERGE_THAT_CLASHES)

    def test_what_is_lacked(self) -> None:
        """A summary covers what is held, and what it doesn't cover is lacked."""
        self.expect_rows(1, rows.MINIMUM_TEXT, "accepted: rules 1, cases 17", rows.WHAT_IS_LACKED)

    def test_replicas_there(self) -> None:
        self.expect_rows(2, rows.MINIMUM_TEXT, "accepted: rules 1, cases 17", rows.REPLICAS_THERE)

    def test_messages(self) -> None:
        self.expect_rows(1, rows.ONE_TEXT, NOTHING.rstrip(), rows.MESSAGES)

    def test_merged_deltas(self) -> None:
        """What a replica lacks can be merged into it, in either version."""
        self.expect_rows(2, rows.ONE_TEXT, NOTHING.rstrip(), rows.MERGED_DELTAS)

    def test_summaries(self) -> None:
        """Ranges are as long as possible, whatever the order in which operations come."""
        for ids, summary in rows.SUMMARIES:
            lines = [json.dumps(["tell", 1, id, [["a", 1]]]) for id in ids]
            answers = [*((line, "told") for line in lines), ('["summary",1]', summary)]
            self.expect_rows(1, rows.ONE_TEXT, NOTHING.rstrip(), answers)

    def test_exchange_of_a_clash(self) -> None:
        """An id that stands for another bag at the replica that takes in keeps it."""
        self.expect_rows(2, rows.ONE_TEXT, NOTHING.rstrip(), rows.EXCHANGE_OF_A_CLASH)


class Hostile(Runs):
    def test_a_text_that_is_cut(self) -> None:
        """Anywhere, by the end of the input and by the line `---`."""
        for places, output in rows.CUTS:
            for place in places:
                self.expect(rows.CUT_TEXT[:place], output)
                self.expect(f"{rows.CUT_TEXT[:place]}\n---\n", output)
        self.assertEqual(places[-1], len(rows.CUT_TEXT))

    def test_hostile_lines(self) -> None:
        self.expect_rows(1, rows.ONE_TEXT, NOTHING.rstrip(), rows.HOSTILE_LINES)

    def test_messages_that_are_cut(self) -> None:
        """Each proper beginning of a summary or delta is refused, and changes nothing; the whole ones are read."""
        deltas = (rows.HELD_DELTA_1, rows.HELD_DELTA_2)
        table = [*rows.HELD_MINIMA, *((f'["lacks",1,[],{version}]', it) for version, it in enumerate(deltas, 1))]
        messages = (("lacks", rows.HELD_SUMMARY, "[2,[]]"), *(("merge", it, "merged 0") for it in deltas))
        for verb, text, answer in messages:
            start = f'["{verb}",1,'
            line = f"{start}{text}]"
            table += [(line[:place], "refused 30") for place in range(1, len(line))]
            table += [(f"{start}{text[:place]}]", "refused 30") for place in range(len(text))]
            table += [(line, answer), ('["summary",1]', rows.HELD_SUMMARY)]
        self.expect_rows(1, rows.MINIMUM_TEXT, "accepted: rules 1, cases 17", [*table, ('["show",1]', "min(2)")])


if __name__ == "__main__":
    unittest.main()
