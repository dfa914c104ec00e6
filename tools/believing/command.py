"""What has to be believed of a contract: the definitions that it reaches, by file with their lines, and the sum.

    tools/believe chr_read::read                        a public function: all clauses of its contract
    tools/believe chr_join::accept --clause confluent   one clause of it
    tools/believe chr_ops::OpSet                        a public type or trait: the contracts of its public functions
    tools/believe chr_read                              a crate: those of all its public functions
    tools/believe --table read accept accept.confluent OpSet run
                                                        the sums alone, as a table; NAME.CLAUSE is one clause
    tools/believe --clauses chr_read                    the names of the clauses of each public function, one a line
    tools/believe --where Step                          the files of definitions that define a word

A contract reaches the words of its clauses, the ghost members (fields, the view, value and invariant of a model, the
value of a trait's) of the repository's types that its signature or a definition names, and from each word its
definition in specs/ of the repository's crates, and so on. The library's definitions are not followed. Of one clause
alone only the parameters that it names count, and not the result's type, which its words name where they speak of it.

A definition is its signature and cases, or its record or data, with the line of its fixity; a part of a module with
parameters counts that module's line once. Comments and blank lines are not counted. Lines of Rust (the clauses, and the
types with their ghost members, constants) are named and not summed, and so are words of proofs/ that a definition
cites. Two sums are told: of what the clauses reach by their words, and of that with what the named types keep (ghost
fields, the view and invariant of a model), which holds of each value of the type and need not be read to believe the
clause of it.
Exit status: 0, 1 where a word was not found in the repository's modules (a warning tells it), 2 for words that are no
call.
"""

import argparse
import os
import sys
from collections.abc import Iterable, Sequence
from pathlib import Path

from .reach import Reach
from .repository import Repository
from .rust import Function
from .telling import clauses_line, each_line, table_lines, told, where_lines

TOP = str(Path(__file__).resolve().parents[2])


def reached(repository: Repository, functions: Iterable[Function], clause: str | None = None) -> Reach:
    reach = Reach(repository)
    for it in functions:
        reach.function(it, clause)
    reach.add_kept()
    return reach


def table(repository: Repository, names: Sequence[str]) -> list[str]:
    """The sums of names, NAME.CLAUSE each for one clause."""
    rows = []
    for said in names:
        path, _, clause = said.partition(".")
        functions, name = repository.find(path)
        rows.append((name, clause, reached(repository, functions, clause or None)))
    return table_lines(rows)


def lines_of(repository: Repository, name: str, clause: str | None, is_each: bool) -> list[str]:
    functions, called = repository.find(name)
    if is_each:
        return [each_line(it, reached(repository, [it])) for it in functions]
    return told(called, reached(repository, functions, clause))


def named_lines(repository: Repository, name: str) -> list[str]:
    return [clauses_line(it) for it in repository.find(name)[0]]


def defined_lines(repository: Repository, word: str) -> list[str]:
    found = repository.defined(word)
    if not found:
        raise SystemExit(f"believe: no file of definitions defines {word}")
    return where_lines(repository, found)


def main() -> int:
    words = argparse.ArgumentParser(description=__doc__, formatter_class=argparse.RawDescriptionHelpFormatter)
    words.add_argument("name", nargs="*", help="crate, crate::function, crate::Type or crate::Type::function")
    words.add_argument("--clause", metavar="NAME", help="one clause alone: its name, or `requires` or `ensures`")
    words.add_argument("--table", action="store_true", help="the sums of all names, as a table")
    words.add_argument("--each", action="store_true", help="of a crate or type, the sums of each public function")
    words.add_argument("--clauses", action="store_true", help="the names of clauses alone, by public function")
    words.add_argument("--where", action="store_true", help="where each name is defined, as a word of definitions")
    words.add_argument("--top", default=TOP, help=argparse.SUPPRESS)
    said = words.parse_args()
    if not said.name:
        words.print_usage(sys.stderr)
        return 2
    repository = Repository(os.path.realpath(said.top))
    if said.table:
        print("\n".join(table(repository, said.name)))
    for name in [] if said.table else said.name:
        if said.where:
            lines = defined_lines(repository, name)
        elif said.clauses:
            lines = named_lines(repository, name)
        else:
            lines = lines_of(repository, name, said.clause, said.each)
        print("\n".join(lines))
    for it in repository.warned:
        print(f"warning: {it}", file=sys.stderr)
    return 1 if repository.warned else 0
