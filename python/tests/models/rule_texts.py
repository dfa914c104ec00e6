"""Rules and stores read from what is told of a program, by expressions of their own."""

import re

from slow_verdict import Pattern, Program, Rule, Term

ATOM = re.compile(r"([a-z]\w*)(?:\(([^()]*)\))?")
COMPARISON = re.compile(r"(\w+|-\d+) (=:=|=\\=|=<|>=|<|>) (\w+|-\d+)")


def term(word: str, place: int) -> Term:
    """A variable without a name is a new one each time."""
    if re.fullmatch(r"-?\d+", word):
        return int(word)
    return f"_{place}" if word == "_" else word


def atoms(text: str) -> tuple[Pattern, ...]:
    found = []
    for atom in ATOM.finditer(text):
        words = atom[2].split(",") if atom[2] else []
        found.append(Pattern(atom[1], tuple(term(word.strip(), atom.start() + n) for n, word in enumerate(words))))
    return tuple(found)


def rule(text: str) -> Rule:
    """One that stands in a line."""
    text = re.sub(r"^\s*\w+ @ ", "", text).strip().removesuffix(".")
    heads, _, rest = text.partition(" <=> ")
    guard, bar, body = rest.rpartition(" | ")
    kept, backslash, _ = heads.rpartition(" \\ ")
    compared = COMPARISON.findall(guard) if bar else []
    # (variables without a name are told apart by their places in all heads)
    both = atoms(heads)
    parts = len(atoms(kept)) if backslash else 0
    return Rule(
        both[:parts],
        both[parts:],
        tuple((term(left, 0), sign, term(right, 0)) for left, sign, right in compared),
        () if body == "true" else atoms(body),
    )


def store(text: str) -> list[Pattern]:
    return [] if text == "true" else list(atoms(text))


def replaced(program: Program, number: int, rules: str) -> Program:
    """The program with these rules, each in its line, in place of that of this number."""
    made = tuple(rule(line) for line in rules.strip().splitlines())
    return Program(program.symbols, program.rules[: number - 1] + made + program.rules[number:])


def read_program(text: str) -> Program:
    """A program that is accepted, or refused for a case. Nothing here asks for weights."""
    clauses = [" ".join(clause.split()) for clause in re.sub("%.*", "", text).split(".")]
    declared = [clause.partition(" chr_constraint ")[2] for clause in clauses if clause.startswith(":- chr_constraint")]
    symbols = {(name, int(arity)): 1 for name, arity in re.findall(r"(\w+)\s*/\s*(\d)", ",".join(declared))}
    return Program(symbols, tuple(rule(clause) for clause in clauses if "<=>" in clause))
