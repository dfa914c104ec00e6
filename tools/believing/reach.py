"""The definitions that contracts reach."""

import re
from collections.abc import Callable

from .definitions import FIXITIES, INNER, Block
from .repository import Constant, Found, Proof, Repository
from .rust import TRAIT, Clause, Function, Member, RustType, Source
from .scopes import Scope
from .texts import NAME
from .walks import Walk

GROUP = re.compile(rf"[({{]((?:\s*{NAME})+?)\s*:")
RUST_PATH = re.compile(r"\b\w+(?:::\w+)*")
MUTUAL = "mutual"


def always(_: Member) -> bool:
    return True


class Reach:
    """What the clauses of functions reach. `kept` has those that they reach by their words alone, once what types keep
    was added."""

    def __init__(self, repository: Repository) -> None:
        self.repository = repository
        self.blocks: dict[tuple[str, int], Block] = {}
        self.types: dict[tuple[str, int], RustType] = {}
        self.proofs: set[str] = set()
        self.constants: set[str] = set()
        self.clauses: list[tuple[Function, Clause]] = []
        self.kept: set[tuple[str, int]] = set()

    def function(self, it: Function, clause: str | None = None) -> None:
        """Adds the contract of a function, or one clause of it."""
        chosen = [one for one in it.clauses if clause is None or clause in (one.name, one.kind)]
        if clause is not None and not chosen:
            named = ", ".join(one.name or one.kind for one in it.clauses)
            raise SystemExit(f"believe: {it.short} has no clause {clause}: it has {named}")
        bound = {name for name, _ in it.params} | {"result"} | self.members_of_trait(it)
        for one in chosen:
            self.clauses.append((it, one))
            self.clause(it, one, bound)
        said = {word for one in chosen for word in re.findall(r"\w+", one.text)}
        kinds = [kind for name, kind in it.params if clause is None or name in said]
        for kind in (*kinds, *([it.back] if clause is None else []), it.generics):
            self.rust(it.source, kind, it.owner)

    def members_of_trait(self, it: Function) -> set[str]:
        types = self.repository.types[it.source.crate, it.owner] if it.trait == TRAIT and it.owner else []
        return {member.name for kind in types for member in kind.members}

    def clause(self, it: Function, clause: Clause, bound: set[str]) -> None:
        place = f"{it.source.file}:{clause.line}"
        scope = Scope(self.repository, it.imports, place, source=it.source)
        self.walk(clause.text, scope, bound)

    def walk(self, text: str, scope: Scope, bound: set[str], block: Block | None = None) -> None:
        Walk(text, scope, bound, self.add, block).run()

    def add(self, found: Found) -> None:
        if isinstance(found, Block):
            self.block(found)
        elif isinstance(found, RustType):
            self.type(found)
        elif isinstance(found, Constant):
            self.constants.add(found.path)
        elif isinstance(found, Proof):
            self.proofs.add(found.path)

    def rust(self, source: Source, text: str, owner: str | None = None) -> None:
        """Adds the types of the repository that a text of Rust names."""
        for path in RUST_PATH.findall(text):
            found = self.repository.rust_type(source, owner if path == "Self" and owner else path)
            if found:
                self.type(found)

    def type(self, it: RustType) -> None:
        key = (it.source.file, it.line)
        if key in self.types:
            return
        self.types[key] = it
        self.members(it, lambda member: member.name == "Value" or it.kind == TRAIT)
        if not it.is_model:
            self.rust(it.source, it.fields)

    def members(self, it: RustType, wanted: Callable[[Member], bool]) -> None:
        for member in filter(wanted, it.members):
            scope = Scope(self.repository, member.imports, f"{it.source.file}:{member.line}", source=it.source)
            self.walk(member.text, scope, member.bound)

    def add_kept(self) -> None:
        """Adds what the named types keep: their ghost fields, and a model's view and invariant."""
        self.kept = set(self.blocks)
        told: set[tuple[str, int]] = set()
        while told != set(self.types):
            new = {key: it for key, it in self.types.items() if key not in told}
            told |= set(new)
            for it in new.values():
                self.members(it, always)

    def block(self, it: Block) -> None:
        if it.key in self.blocks:
            return
        self.blocks[it.key] = it
        bound = self.bound_outside(it)
        for part in it.parts:
            if part.text.split()[0] in (*FIXITIES, "unfolding"):
                continue
            text = re.sub(rf"^{INNER.pattern}\s*\S*", "", part.text) if it.is_module else part.text
            place = f"{it.module.file}:{part.line}"
            self.walk(text, Scope(self.repository, it.module.imports, place, module=it.module), bound, it)

    def bound_outside(self, it: Block) -> set[str]:
        """The parameters of the modules around a definition, which are added."""
        bound: set[str] = set()
        outer = it.outer
        while outer:
            self.block(outer)
            head = outer.parts[0].text
            if MUTUAL not in head.split():
                bound |= {name for group in GROUP.findall(head) for name in group.split()}
            outer = outer.outer
        return bound

    def sums(self) -> tuple[int, int, int, int]:
        """How many definitions the clauses reach, of how many lines, and so of the clauses and what types keep."""
        return (*self.sum_of(self.kept), *self.sum_of(set(self.blocks)))

    def sum_of(self, keys: set[tuple[str, int]]) -> tuple[int, int]:
        blocks = [self.blocks[key] for key in keys]
        return sum(not it.is_module for it in blocks), sum(it.count for it in blocks)
