"""Explanations of texts. `explanations/NAME.chr` is told as `NAME.out` has it, by `--all` as `NAME.all`, by `--wide` as
`NAME.wide`, and drawn by `--dot` as `NAME.dot`, by `--wide --dot` as `NAME.wide_dot`."""

import itertools
import os
import random
import re
import subprocess
import unittest
from collections import Counter
from concurrent.futures import ThreadPoolExecutor
from pathlib import Path

import slow_beside
from chrrep.node import program_path
from random_programs import program
from rule_texts import read_program, replaced, store
from slow_verdict import Pattern, Program, TooManyTypes, TooSlow, is_at_rest, smallest_failing, store_text

TEXTS = Path(__file__).resolve().parent / "explanations"
EXAMPLES = Path(__file__).resolve().parents[3] / "examples"
OPTIONS = {
    ".out": (),
    ".all": ("--all",),
    ".dot": ("--dot",),
    ".wide": ("--wide",),
    ".wide_dot": ("--dot", "--wide"),
}
MAX_TEXT = 65_536
SECONDS = 60.0
WORKERS = os.cpu_count() or 1

SEED = 40
PROGRAMS = int(os.environ.get("CHRREP_PROGRAMS", "3000"))
"""How many random programs are explained of each kind."""
SYMBOLS = "abcd"
MAX_BODY = 4
DECLARED = ":- chr_constraint a/0, b/0, c/0, d/0.\n"
SMALL_WEIGHTS = list(itertools.product(range(1, 7), repeat=len(SYMBOLS)))
WEIGHTS_FOLLOW = "in place of all that are declared each rule lowers the weight:\n"
IN_CYCLE = re.compile(r"  (?:once|(\d+) times) rule (\d+): ")

MOST_TYPES = 200
"""More order types of one overlap are not looked at."""
WAYS = r"(.*)\nOne way:\n(?:  \d.*\n|  and .*\n)*  end: (.*)\nThe other way:\n(?:  \d.*\n|  and .*\n)*  end: (.*)\n"
SHOWN = re.compile(f"The store: {WAYS}")
FIRST = re.compile("^A check tells of the first case:\n  (.*)$", re.M)

PROPOSED = re.compile(r"with this in place of rule (\d+):\n((?:  .*\n)+)")
KEPT = re.compile(
    PROPOSED.pattern
    + r"(?:Kept by this one alone: (.*)\n)?(?:Kept twice by this one alone: (.*)\n)?(Of the small stores)?"
)
NO_CHANGE = "No change of one rule was found with which the program is accepted.\n"

BESIDE = re.compile(r"^What may stay .*\n(?:  \w+/\d: .*\n)*", re.M)
KINDS_BESIDE = ("may stay twice", "never stays twice", " may stay that differ ", "no two")

PAIR = re.compile(r"^  rules (\d+) (\d+): overlaps (\d+), cases (\d+)$", re.M)
EDGE = re.compile(r'^  rule(\d+) -- rule(\d+) \[label="overlaps (\d+), cases (\d+)"\];$', re.M)

Rule = tuple[list[str], list[str]]
"""What a rule removes, and its body."""


def run(verb: str, text: bytes, *options: str) -> tuple[int, str]:
    words = [program_path(), verb, *options]
    end = subprocess.run(words, input=text, stdout=subprocess.PIPE, timeout=SECONDS, check=False)
    return end.returncode, end.stdout.decode()


def judging(text: bytes, *options: str) -> tuple[str, ...]:
    """The options of the check whose verdict is told by these: by sorted cases where they are asked for, or where there
    are too many joint ones."""
    return ("--wide",) if "--wide" in options or run("check", text)[1].startswith("refused 22:") else ()


class Explanations(unittest.TestCase):
    maxDiff = None

    def check(self, text: bytes, told: str, *options: str) -> None:
        """An explanation ends with the status of the check whose verdict it tells."""
        self.assertEqual(run("explain", text, *options), (run("check", text, *judging(text, *options))[0], told))

    def test_texts(self) -> None:
        texts = sorted(TEXTS.glob("*.chr"))
        self.assertTrue(texts)
        for text in texts:
            told = [file for kind in OPTIONS if (file := text.with_suffix(kind)).exists()]
            self.assertTrue(told, text)
            for file in told:
                with self.subTest(file.name):
                    self.check(text.read_bytes(), file.read_text(), *OPTIONS[file.suffix])

    def test_which_cases_decide(self) -> None:
        """The first line tells it, and the second one what to do where a check without the option is refused 22."""
        texts = [*sorted(TEXTS.glob("*.chr")), *sorted(EXAMPLES.glob("*.chr"))]
        crowded = 0
        for file, options in itertools.product(texts, ((), ("--wide",))):
            text = file.read_bytes()
            verdict = run("check", text)[1]
            with self.subTest(file.name, options=options):
                first, second, *_ = [*run("explain", text, *options)[1].splitlines(), "", ""]
                by_clauses = re.match(r"refused (20|\d: clause|1\d: clause|2$)", verdict)
                wide = not by_clauses and bool(judging(text, *options))
                self.assertEqual(bool(re.match(r"(accepted|refused 2\d) with --wide: ", first)), wide, first)
                many = not options and verdict.startswith("refused 22: ")
                self.assertEqual(second.startswith("Without --wide "), many, second)
                crowded += many
        self.assertGreater(crowded, 10)

    def test_a_text_that_is_too_long(self) -> None:
        self.assertEqual(run("explain", b" " * MAX_TEXT)[0], 0)
        self.check(b" " * (MAX_TEXT + 1), "fault 2: the text has more than 65536 bytes\n")

    def test_too_many_rules(self) -> None:
        self.check(
            b":- chr_constraint a/0.\n" + 65 * b"a <=> true.\n",
            "line 66, column 1, clause 66, fault 7: this is rule 65 of the program, 64 are allowed\n"
            "    a <=> true.\n"
            "    ^\n"
            "    write less, or part the rule or the program\n",
        )

    def test_too_many_symbols(self) -> None:
        declared = "".join(f":- chr_constraint a{number}/0.\n" for number in range(64))
        self.check(
            f"{declared}:- chr_constraint b/0.\nb <=> true.".encode(),
            "line 65, column 19, clause 65, fault 7: this is symbol 65 of the program, 64 are allowed\n"
            "    :- chr_constraint b/0.\n"
            "                      ^\n"
            "    write less, or part the rule or the program\n"
            "line 66, column 1, clause 66, fault 5: `b/0` is not declared; declared are"
            " `a0/0`, `a1/0`, `a2/0`, `a3/0`, `a4/0`, `a5/0`, `a6/0`, `a7/0`, ..\n"
            "    b <=> true.\n"
            "    ^\n"
            "    clause 65, which is bad, would declare it: mend that one first\n"
            "A clause after a bad one is read as if the bad one were not there.\n",
        )

    def test_a_long_side(self) -> None:
        """Of a side of 137 steps the first ones are told."""
        text = (
            b":- chr_constraint a/0, b/0, c/0, d/0, x/0."
            b":- chr_weight a/0 = 200. :- chr_weight b/0 = 20. :- chr_weight c/0 = 2."
            b"a <=> x. a <=> b, b, b, b, b, b, b, b. b <=> c, c, c, c, c, c, c, c. c <=> d. d <=> true."
        )
        status, told = run("explain", text)
        self.assertEqual(status, 1)
        self.assertIn("  and 37 steps more\n  end: true\n", told)
        self.assertIn('  right100 -> rightend [label="more steps"];\n', run("explain", text, "--dot")[1])

    def test_comments_and_nothing_are_programs(self) -> None:
        for text in (b"", b"% a. b\n"):
            self.assertEqual(run("explain", text)[0], 0)


def pasted(text: str, number: int, rules: str) -> bytes:
    """The text with these rules in place of the rule of this number."""
    clauses = re.sub("%.*", "", text).split(".")
    places = [place for place, clause in enumerate(clauses[:-1]) if not clause.strip().startswith(":-")]
    clauses[places[number - 1]] = rules.strip().removesuffix(".")
    return ".".join(clauses).encode()


class Proposals(unittest.TestCase):
    def test_proposed_rules_are_pasted(self) -> None:
        """With each of them the text is accepted, by the cases that decide of it."""
        told = 0
        for file, options in itertools.product(sorted(TEXTS.glob("*.chr")), ((), ("--wide",))):
            text = file.read_bytes()
            for number, rules in PROPOSED.findall(run("explain", text, *options)[1]):
                told += 1
                with self.subTest(file.name, options=options, number=number, rules=rules):
                    changed = pasted(text.decode(), int(number), rules)
                    self.assertEqual(run("check", changed, *judging(text, *options))[0], 0)
        self.assertGreater(told, 40)


class Smallest(unittest.TestCase):
    def test_random_programs(self) -> None:
        """The smallest failing case is shown, and beside it what a check tells of the first, where that is another."""
        chance = random.Random(SEED)
        kinds: Counter[str] = Counter()
        for _ in range(PROGRAMS):
            made = program(chance)
            told = run("explain", str(made).encode())[1]
            if not told.startswith("refused 21"):
                continue
            try:
                expected = smallest_failing(made, MOST_TYPES)
            except (TooManyTypes, TooSlow):
                kinds["too slow"] += 1
                continue
            with self.subTest(program=str(made)):
                assert expected is not None
                first, smallest = ((store_text(list(case.store)), case.left, case.right) for case in expected)
                self.assertEqual(SHOWN.findall(told), [smallest])
                check = run("check", str(made).encode())[1].removeprefix("refused 21: ").rstrip()
                self.assertEqual(FIRST.findall(told), [] if smallest == first else [check])
                kinds["the first" if smallest == first else "another"] += 1
        self.assertGreater(min(kinds["the first"], kinds["another"]), PROGRAMS // 100, kinds)


def small_atoms(name: str, arity: int, values: int) -> list[Pattern]:
    return [Pattern(name, chosen) for chosen in itertools.product(range(values), repeat=arity)]


def unnamed(file: Path) -> bytes:
    """The text, in which no comment names columns."""
    return file.read_bytes().replace(b"chr_columns", b"columns")


class Staying(unittest.TestCase):
    """What is told to stay, by the slow program's definition of rest."""

    def check_kept(self, made: Program, told: str) -> int:
        """What one proposal alone keeps stays with it, and goes with the others and by the program itself."""
        proposals = KEPT.findall(told)
        changed = [replaced(made, int(number), rules) for number, rules, *_ in proposals]
        for place, (_, _, apart, twice, none) in enumerate(proposals):
            others = [made, *(other for other in changed if other is not changed[place])]
            self.assertEqual(bool(none), not apart and not twice)
            for kept in [text for text in (apart, twice) if text]:
                atoms = store(kept)
                self.assertEqual(len(set(atoms)) < len(atoms), kept == twice)
                self.assertTrue(is_at_rest(changed[place], atoms), kept)
                self.assertFalse(any(is_at_rest(other, atoms) for other in others), kept)
            if not apart:
                self.check_none_alone(made, int(proposals[place][0]), changed[place], others)
        return len(proposals)

    def check_none_alone(self, made: Program, number: int, changed: Program, others: list[Program]) -> None:
        """No two different facts of the changed rule's symbols stay with it alone."""
        symbols = {(head.name, len(head.terms)) for head in made.rules[number - 1].heads}
        atoms = [atom for name, arity in symbols for atom in small_atoms(name, arity, 2)]
        for pair in itertools.combinations(atoms, 2):
            if is_at_rest(changed, list(pair)):
                self.assertTrue(any(is_at_rest(other, list(pair)) for other in others), pair)

    def test_random_programs(self) -> None:
        chance = random.Random(SEED)
        kinds: Counter[str] = Counter()
        for _ in range(PROGRAMS):
            made = program(chance)
            told = run("explain", str(made).encode())[1]
            with self.subTest(program=str(made)):
                if told.startswith("refused 21"):
                    found = self.check_kept(made, told)
                    self.assertEqual(not found, NO_CHANGE in told)
                    kinds["proposals"] += found
                    kinds["no change"] += not found
        self.assertGreater(min(kinds["proposals"], kinds["no change"]), PROGRAMS // 100, kinds)

    def test_examples(self) -> None:
        """Of all texts here and in the examples folder."""
        told = 0
        for file in [*sorted(TEXTS.glob("*.chr")), *sorted(EXAMPLES.glob("*.chr"))]:
            answer = run("explain", unnamed(file))[1]
            if PROPOSED.search(answer):
                made = read_program(file.read_text())
                with self.subTest(file.name):
                    told += self.check_kept(made, answer)
        self.assertGreater(told, 30)


class SideBySide(unittest.TestCase):
    """What is told of an accepted program: which facts may stay side by side, by the slow program."""

    def check(self, made: Program, answer: str) -> Counter[str]:
        lines = "".join(BESIDE.findall(answer))
        self.assertEqual(lines, slow_beside.told(made))
        return Counter(kind for kind in KINDS_BESIDE for _ in range(lines.count(kind)))

    def test_random_programs(self) -> None:
        chance = random.Random(SEED)
        kinds: Counter[str] = Counter()
        for _ in range(PROGRAMS):
            made = program(chance)
            answer = run("explain", str(made).encode())[1]
            with self.subTest(program=str(made)):
                if answer.startswith("accepted"):
                    kinds += self.check(made, answer)
        self.assertGreater(min(kinds[kind] for kind in KINDS_BESIDE), PROGRAMS // 250, kinds)

    def test_examples(self) -> None:
        """Of all texts here and in the examples folder."""
        found = 0
        for file in [*sorted(TEXTS.glob("*.chr")), *sorted(EXAMPLES.glob("*.chr"))]:
            answer = run("explain", unnamed(file))[1]
            if answer.startswith("accepted"):
                with self.subTest(file.name):
                    found += self.check(read_program(file.read_text().partition("\n---")[0]), answer).total()
        self.assertGreater(found, 80)


class Drawings(unittest.TestCase):
    """Drawings for Graphviz."""

    def drawn(self, text: str, *options: str) -> str:
        return run("explain", text.encode(), "--dot", *options)[1]

    def test_pairs_without_cases_have_no_edge(self) -> None:
        """An edge stands for each pair of rules that has cases, in programs none of whose rules is a copy."""
        found = 0
        for file in sorted(TEXTS.glob("*.chr")):
            text = file.read_text(errors="replace")
            drawn = self.drawn(text)
            if drawn.startswith("graph overlaps") and "more like it" not in drawn:
                pairs = PAIR.findall(run("explain", text.encode(), "--all")[1])
                found += len([pair for pair in pairs if pair[3] == "0"])
                wanted = [pair for pair in pairs if pair[3] != "0"]
                with self.subTest(file.name):
                    self.assertEqual(EDGE.findall(drawn), wanted)
        self.assertGreater(found, 0)

    def test_copies_are_one_node(self) -> None:
        """Names of rules, symbols and variables and the numbers in them don't matter, but which are the same."""
        rules = [
            "x1(A) \\ x1(B) <=> A =< B | true.",
            "named @ x2(C) \\ x2(D) <=> C =< D | true.",
            "x3(A) \\ x3(B) <=> A < B | true.",
            "x4(7) \\ x4(B) <=> B > 7 | true.",
            "x5(-1) \\ x5(X) <=> X > 0 | true.",
            "x6(A) \\ x6(B) <=> A =< B | true.",
            "x7(A), x7(A) <=> x8(A).",
            "x9(A), x9(B) <=> x8(A).",
        ]
        declared = ":- chr_constraint " + ", ".join(f"x{number}/1" for number in range(1, 10)) + ".\n"
        drawn = self.drawn(declared + "\n".join(rules[:7]))
        nodes = re.findall(r'^  (rule\d+) \[label="(.*)"\];$', drawn, re.M)
        self.assertEqual([name for name, _ in nodes], ["rule1", "rule3", "rule4", "rule7"])
        self.assertEqual(
            [text.partition("\\n")[2] for _, text in nodes],
            ["and 2 more like it: rules 2, 6", "", "and 1 more like it: rules 5", ""],
        )
        pairs = PAIR.findall(run("explain", (declared + "\n".join(rules[:7])).encode(), "--all")[1])
        cases = sum(int(pair[3]) for pair in pairs if pair[0] in {"1", "2", "6"})
        self.assertEqual([int(edge[3]) for edge in EDGE.findall(drawn) if edge[0] == "1"], [cases])

    def test_many_copies(self) -> None:
        names = [f"x{number}" for number in range(40)]
        rules = "".join(f"{name}, {name} <=> {name}.\n" for name in names)
        drawn = self.drawn(f":- chr_constraint {', '.join(f'{name}/0' for name in names)}.\n{rules}")
        self.assertIn("\\nand 39 more like it: rules 2, 3, 4, 5, 6, 7, 8, 9, ..\"];\n", drawn)
        self.assertEqual(len(EDGE.findall(drawn)), 1)

    def test_a_cycle_is_drawn(self) -> None:
        drawn = self.drawn((TEXTS / "turns.chr").read_text())
        self.assertTrue(drawn.startswith("digraph cycle {\n"))
        for line in (
            '  rule2 [label="split @ a(X) <=> b(X), b(X), b(X).\\nonce"];\n',
            '  rule3 [label="join @ b(X), b(Y) <=> a(X).\\nonce"];\n',
            '  rule2 -> rule3 [label="b/1"];\n',
            '  rule3 -> rule2 [label="a/1"];\n',
        ):
            self.assertIn(line, drawn)
        self.assertNotIn("rule1", drawn)
        self.assertEqual(drawn.count("->"), 2)

    def test_columns_are_drawn(self) -> None:
        drawn = self.drawn((TEXTS / "throngs.chr").read_text(), "--wide")
        self.assertTrue(drawn.startswith("digraph columns {\n"))
        for line in (
            '  symbol0 [label="best/6\\nby order 2, 3, 4, 5; by equality 6"];\n',
            '  symbol0 -> symbol0 [label="2 < 2, 3 < 3, 4 < 4, 5 < 5, 6 =\\\\= 6"];\n',
            '  text [label="refused 22 with --wide: an overlap has more than 50000 combinations of values\\l',
        ):
            self.assertIn(line, drawn)
        self.assertEqual(drawn.count("-> symbol0"), 1)


def random_rules(chance: random.Random) -> list[Rule]:
    def some(least: int, most: int) -> list[str]:
        return chance.choices(SYMBOLS, k=chance.randint(least, most))

    return [(some(1, 3), some(0, MAX_BODY)) for _ in range(chance.randint(1, 5))]


def text_of(rules: list[Rule], weights: str) -> bytes:
    clauses = "".join(f"{', '.join(removed)} <=> {', '.join(body) or 'true'}.\n" for removed, body in rules)
    return f"{DECLARED}{weights}{clauses}".encode()


def losses(rule: Rule) -> list[int]:
    """By how much more often the rule removes each symbol than its body has it."""
    removed, body = rule
    return [removed.count(symbol) - body.count(symbol) for symbol in SYMBOLS]


def lowers(weights: tuple[int, ...], rules: list[list[int]]) -> bool:
    return all(sum(weight * loss for weight, loss in zip(weights, rule, strict=True)) > 0 for rule in rules)


class Weights(unittest.TestCase):
    """Weights that are told of a program with a rule that doesn't lower."""

    def told(self, rules: list[Rule]) -> str:
        return run("explain", text_of(rules, ""))[1]

    def check_cycle(self, rules: list[Rule], told: str) -> None:
        """Of no symbol the told rules take more than they give back."""
        applied = [(int(times or 1), losses(rules[int(rule) - 1])) for times, rule in IN_CYCLE.findall(told)]
        self.assertTrue(applied)
        for symbol in range(len(SYMBOLS)):
            self.assertLessEqual(sum(times * rule[symbol] for times, rule in applied), 0)

    def check_told(self, rules: list[Rule], told: str) -> str:
        """Told weights are accepted, and where none are told no small ones are there."""
        _, mark, weights = told.partition(WEIGHTS_FOLLOW)
        if mark:
            self.assertNotIn("refused 20", run("check", text_of(rules, weights))[1])
            return "weights"
        rows = [losses(rule) for rule in rules]
        self.assertFalse(any(lowers(weights, rows) for weights in SMALL_WEIGHTS), rules)
        if "applied together" in told:
            self.check_cycle(rules, told)
            return "cycle"
        return "one rule" if "the body has each removed symbol" in told else "nothing"

    def test_random_programs(self) -> None:
        chance = random.Random(SEED)
        kinds: Counter[str] = Counter()
        with ThreadPoolExecutor(WORKERS) as pool:
            while kinds.total() < PROGRAMS:
                many = [random_rules(chance) for _ in range(PROGRAMS)]
                for rules, told in zip(many, pool.map(self.told, many), strict=True):
                    if told.startswith("refused 20"):
                        kinds[self.check_told(rules, told)] += 1
        self.assertEqual(kinds["nothing"], 0)
        self.assertTrue(kinds["weights"] and kinds["cycle"] and kinds["one rule"], kinds)

    def test_told_declarations_are_pasted(self) -> None:
        """A chain gets its weights in one round, also one whose weights have to be pairs."""
        for name in ("chains", "doublings"):
            text = (TEXTS / f"{name}.chr").read_text()
            _, mark, weights = run("explain", text.encode())[1].partition(WEIGHTS_FOLLOW)
            self.assertTrue(mark)
            rules = "".join(line for line in text.splitlines(keepends=True) if not line.startswith(":- chr_weight"))
            declared, end, others = rules.partition(".\n")
            self.assertEqual(run("check", f"{declared}{end}{weights}{others}".encode())[0], 0)

    def test_large_programs(self) -> None:
        """64 symbols and 64 rules: a chain, and the same closed to a cycle."""
        names = [f"a{number}" for number in range(64)]
        declared = f":- chr_constraint {', '.join(f'{name}/0' for name in names)}.\n"
        chain = "".join(f"{one} <=> {other}.\n" for one, other in itertools.pairwise(names))
        self.assertIn(":- chr_weight a0/0 = 64.\n", run("explain", f"{declared}{chain}".encode())[1])
        told = run("explain", f"{declared}{chain}a63 <=> a0.\n".encode())[1]
        self.assertEqual(len(IN_CYCLE.findall(told)), 64)

    def test_weights_that_are_too_great(self) -> None:
        """A chain of bodies of eight passes every pair of weights."""
        names = [f"a{number}" for number in range(32)]
        declared = f":- chr_constraint {', '.join(f'{name}/0' for name in names)}.\n"
        chain = "".join(f"{one} <=> {', '.join(8 * [other])}.\n" for one, other in itertools.pairwise(names))
        status, told = run("explain", f"{declared}{chain}".encode())
        self.assertEqual(status, 1)
        self.assertIn("found neither weights for all rules, nor rules that have none", told)


if __name__ == "__main__":
    unittest.main()
