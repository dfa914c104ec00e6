"""What is printed."""

from collections.abc import Iterable, Sequence

from .definitions import Block
from .reach import Reach
from .repository import Repository
from .rust import Clause, Function


def number(count: int, word: str) -> str:
    return f"{count:,} {word}{'s' * (count != 1)}"


def by_file(blocks: Iterable[Block]) -> dict[str, list[Block]]:
    files: dict[str, list[Block]] = {}
    for it in sorted(blocks, key=lambda it: (it.module.file, it.line)):
        files.setdefault(it.module.file, []).append(it)
    return files


def clause_line(repository: Repository, it: Function, clause: Clause) -> str:
    said = f"  {it.short}: {clause.kind} {clause.name}".rstrip()
    return f"{said}  ({repository.short(it.source.file)}:{clause.line})"


def file_lines(reach: Reach, file: str, blocks: Sequence[Block]) -> list[str]:
    """A file with its definitions that are reached."""
    named = [it for it in blocks if not it.is_module]
    counts = f"{number(len(named), 'definition')}, {number(sum(it.count for it in blocks), 'line')}"
    lines = [f"{reach.repository.short(file)}: {counts}"]
    for it in named:
        how = "" if it.key in reach.kept else ", by what a type keeps"
        lines.append(f"  {it.line:5} {it.name}, {number(it.count, 'line')}{how}")
    return lines


def list_line(what: str, names: Iterable[str]) -> list[str]:
    listed = ", ".join(names)
    return [f"{what}: {listed}"] if listed else []


def told(name: str, reach: Reach) -> list[str]:
    """All that a contract reaches."""
    count, lines, all_count, all_lines = reach.sums()
    kept = f"with what these types keep {number(all_count, 'definition')}, {number(all_lines, 'line')}"
    return [
        name,
        *(clause_line(reach.repository, it, clause) for it, clause in reach.clauses),
        *(line for file, blocks in by_file(reach.blocks.values()).items() for line in file_lines(reach, file, blocks)),
        *list_line("types of src/ that are named", sorted(it.path for it in reach.types.values())),
        *list_line("constants of src/ that are named", sorted(reach.constants)),
        *list_line("lemmas of proofs/ that a definition cites", sorted(reach.proofs)),
        f"sum: {number(count, 'definition')}, {number(lines, 'line')}; {kept}",
    ]


def each_line(it: Function, reach: Reach) -> str:
    count, lines, all_count, all_lines = reach.sums()
    return f"{count:5} definitions {lines:6} lines {all_count:5} {all_lines:6} with what the types keep  {it.short}"


def clauses_line(it: Function) -> str:
    """A function with the names of its clauses, `requires` before `ensures`."""
    kinds: dict[str, list[str]] = {}
    for clause in it.clauses:
        kinds.setdefault(clause.kind, []).extend([clause.name] if clause.name else [])
    said = [f"{kind} {', '.join(names)}".rstrip() for kind, names in sorted(kinds.items(), reverse=True)]
    return f"{it.short}: {'; '.join(said)}" if said else it.short


def where_lines(repository: Repository, blocks: Iterable[Block]) -> list[str]:
    return [f"{repository.short(it.module.file)}:{it.line}: {it.name}, {number(it.count, 'line')}" for it in blocks]


def table_lines(rows: Iterable[tuple[str, str, Reach]]) -> list[str]:
    """A table of sums, of names and clauses of them."""
    lines = ["| Contract | Definitions | Lines | With what the types keep | Lines |", "|---|---|---|---|---|"]
    for name, clause, reach in rows:
        said = f"`{name}`" + (f", its clause `{clause}`" if clause else "")
        lines.append(f"| {said} | " + " | ".join(f"{count:,}" for count in reach.sums()) + " |")
    return lines
