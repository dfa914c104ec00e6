"""Files of Rust: their functions with clauses, and their types with ghost members."""

import re
from collections.abc import Iterator
from dataclasses import dataclass, field
from typing import NamedTuple

from .imports import Imports, ghost_uses
from .texts import after_bracket, blanked, parted, read, spaces

OUTSIDE_CODE = re.compile(r"//[^\n]*|/\*.*?\*/|b?\"(?:\\.|[^\"\\])*\"|b?'(?:\\[^']+|[^'\\])'", re.DOTALL)
TESTS = re.compile(r"#\[cfg\(test\)\]\s*(?:pub\s+)?mod\s+\w+\s*\{")
USE = re.compile(r"^(pub )?use\s+([^;]+);", re.MULTILINE)
TREE = re.compile(r"(.*?)\{(.*)\}$")
USE_BEFORE_BRACE = re.compile(r"(use\s[^;]*|\.)$")
GHOST_IMPORT = re.compile(r"ghost\s+use\s+[^;]+;")
CONSTANT = re.compile(r"\bconst\s+(\w+)\s*:")
OPENED = re.compile(r"^pub mod (\w+)\s*[;{]", re.MULTILINE)
ITEM = re.compile(
    r"\b(?:(?P<pub>pub(?:\([^)]*\))?)\s+)?(?:(?:const|unsafe)\s+)*"
    r"(?:(?P<fn>fn)\s+(?P<name>\w+)|(?P<kind>struct|enum|trait|union)\s+(?P<type>\w+)"
    r"|(?P<impl>impl)\b|(?P<mod>mod)\s+(?P<inner>\w+)\s*\{)"
)
WHERE = re.compile(r"\bwhere\b.*", re.DOTALL)
GENERICS = re.compile(r"<[^<>]*(<[^<>]*(<[^<>]*>)?[^<>]*>)?[^<>]*>")
WORD = re.compile(r"\w+")
BODY = re.compile(r"[;{(]")
FIELD = re.compile(r"\b(\w+)\s*:(?!:)")
GHOST = re.compile(r"ghost\s+(\w+)\*?\s*[:=]\s*\{")
GHOST_FIELD = re.compile(r"ghost\s+\w+[*]?\s*[:=]\s*\{[^{}]*(\{[^{}]*\}[^{}]*)*\}(\s*by\s*\{[^{}]*\})?")
OF_THE_COMPILER = ("coded", "from_gives")
SIGNATURE = re.compile(r"[(\[]|[)\]]|\{|;|\b(?:requires|ensures|decreases|where)\b")
CLAUSES = ("requires", "ensures", "decreases")
PARAMETER = re.compile(r"\b[a-z_]\w*")
SELF = re.compile(r"\bself\b")
TRAIT = "trait"
MODEL = "Model"
NEAR = 300
"""So far before a brace its `use` begins, if it has one."""


class Clause(NamedTuple):
    """What a function requires or ensures, with its name, if it has one."""

    kind: str
    name: str
    text: str
    line: int


class Member(NamedTuple):
    """A ghost member of a type, with the names that it binds."""

    name: str
    text: str
    imports: Imports
    bound: set[str]
    line: int


class Owner(NamedTuple):
    """The type of an `impl`, or a trait, and the trait that is implemented."""

    name: str
    trait: str | None


@dataclass(eq=False)
class Function:
    source: "Source"
    name: str
    owner: str | None
    trait: str | None
    is_public: bool
    is_open: bool
    line: int
    clauses: list[Clause]
    params: list[tuple[str, str]]
    back: str
    generics: str
    imports: Imports

    @property
    def inside(self) -> list[str]:
        """Its owner, if it has one, and its name."""
        return [*([self.owner] if self.owner else []), self.name]

    @property
    def path(self) -> str:
        return "::".join([self.source.crate, *self.source.parts, *self.inside])

    @property
    def short(self) -> str:
        return "::".join([self.source.crate, *self.inside])


@dataclass(eq=False)
class RustType:
    """A type or trait: its fields' types, and its ghost members."""

    source: "Source"
    kind: str
    name: str
    line: int
    is_public: bool
    fields: str = ""
    members: list[Member] = field(default_factory=list)
    is_model: bool = False

    @property
    def path(self) -> str:
        return "::".join([self.source.crate, *self.source.parts, self.name])


class Model(NamedTuple):
    """An `impl Model for` a type, by its places in the file."""

    name: str
    start: int
    stop: int
    imports: Imports


@dataclass(eq=False)
class Source:
    """A file, as its text and as code alone, both of the same places. What stands behind cfg(test) is no part of it."""

    crate: str
    parts: list[str]
    file: str
    text: str
    code: str
    uses: dict[str, str] = field(default_factory=dict)
    again: list[tuple[str, str]] = field(default_factory=list)
    constants: set[str] = field(default_factory=set)
    opened: set[str] = field(default_factory=set)
    types: list[RustType] = field(default_factory=list)
    functions: list[Function] = field(default_factory=list)
    models: list[Model] = field(default_factory=list)

    def line(self, at: int) -> int:
        return self.code.count("\n", 0, at) + 1

    def members(self, start: int, stop: int, imports: Imports, bound: set[str]) -> Iterator[Member]:
        """The ghost members between two places."""
        for found in GHOST.finditer(self.code, start, stop):
            if found[1] not in OF_THE_COMPILER:
                end = after_bracket(self.code, found.end() - 1)
                text = self.text[found.end() : end - 1]
                yield Member(found[1], text, imports, bound, self.line(found.start()))


def spread(path: str) -> list[str]:
    """The paths of a use, without braces."""
    found = TREE.match(path)
    if not found:
        return [path]
    return [inner for item in parted(found[2], "{", "}") for inner in spread(found[1] + item)]


def without_tests(code: str) -> str:
    for found in TESTS.finditer(code):
        end = after_bracket(code, found.end() - 1)
        code = code[: found.start()] + spaces(code[found.start() : end]) + code[end:]
    return code


def top_of(code: str) -> str:
    """The code without its blocks, which has the imports at its head."""
    parts, start, at = [], 0, code.find("{")
    while at >= 0:
        if USE_BEFORE_BRACE.search(code[max(0, at - NEAR) : at]):
            at = code.find("{", at + 1)
        else:
            parts.append(code[start:at])
            start = after_bracket(code, at)
            at = code.find("{", start)
    return "".join([*parts, code[start:]])


def imports_in(text: str, outer: Imports) -> Imports:
    return ghost_uses("".join(GHOST_IMPORT.findall(text)), outer)


def owner_of(head: str) -> Owner:
    """What an `impl` is of, by what stands between that word and its brace."""
    said = GENERICS.sub("", WHERE.sub("", head)).split(" for ")
    names = WORD.findall(said[-1])
    traits = WORD.findall(said[0]) if len(said) > 1 else []
    return Owner(names[-1] if names else "", traits[-1] if traits else None)


def parameters_of(inside: str) -> list[tuple[str, str]]:
    """The names that parameters bind, each with its type."""
    pairs: list[tuple[str, str]] = []
    for param in parted(inside, "([{<", ")]}>"):
        name, colon, kind = param.partition(":")
        if SELF.search(name) and not colon:
            pairs.append(("self", "Self"))
        else:
            pairs += ((one, kind) for one in PARAMETER.findall(name) if one not in ("mut", "ref"))
    return pairs


class Reader:
    """Reads a file item by item."""

    def __init__(self, source: Source) -> None:
        self.source = source
        self.code = source.code

    def read(self) -> None:
        source = self.source
        for found in USE.finditer(self.code):
            self.use(found[2], found[1] is not None)
        source.constants = set(CONSTANT.findall(self.code))
        source.opened = set(OPENED.findall(self.code))
        self.items(0, len(self.code), None, ghost_uses(top_of(self.code)), True)

    def use(self, said: str, is_public: bool) -> None:
        for path in spread(" ".join(said.split())):
            whole, _, called = path.partition(" as ")
            name = called or whole.split("::")[-1]
            self.source.uses[name] = whole
            if is_public:
                self.source.again.append((name, whole))

    def items(self, start: int, end: int, owner: Owner | None, imports: Imports, is_open: bool) -> None:
        found = ITEM.search(self.code, start, end)
        while found:
            if found["fn"]:
                at = self.function(found, owner, imports, is_open)
            elif found["impl"]:
                at = self.impl(found, imports)
            elif found["mod"]:
                at = after_bracket(self.code, found.end() - 1)
                inner = imports_in(self.code[found.end() : at - 1], imports)
                self.items(found.end(), at - 1, owner, inner, bool(found["pub"]))
            else:
                at = self.type(found, imports)
            found = ITEM.search(self.code, at, end)

    def impl(self, found: re.Match[str], imports: Imports) -> int:
        brace = self.code.index("{", found.end())
        owner = owner_of(self.code[found.end() : brace])
        stop = after_bracket(self.code, brace)
        own = imports_in(self.code[brace + 1 : stop - 1], imports)
        if owner.trait == MODEL:
            self.source.models.append(Model(owner.name, brace, stop, own))
        self.items(brace + 1, stop - 1, owner, own, True)
        return stop

    def type(self, found: re.Match[str], imports: Imports) -> int:
        body = BODY.search(self.code, found.end())
        if body is None:
            return len(self.code)
        start, stop = body.start(), body.end() if body[0] == ";" else after_bracket(self.code, body.start())
        inside = self.code[start:stop]
        own = imports_in(inside, imports)
        it = RustType(self.source, found["kind"], found["type"], self.source.line(found.start()), found["pub"] == "pub")
        bound = set(FIELD.findall(inside)) if body[0] == "{" else set()
        it.members += self.source.members(start, stop, own, bound)
        if it.kind != TRAIT:
            it.fields = GHOST_FIELD.sub("", inside)
        self.source.types.append(it)
        if it.kind == TRAIT and body[0] == "{":
            self.items(start + 1, stop - 1, Owner(it.name, TRAIT), own, True)
        return stop

    def function(self, found: re.Match[str], owner: Owner | None, imports: Imports, is_open: bool) -> int:
        clauses: list[Clause] = []
        ended, stop = self.signature(found.end(), clauses)
        signature = self.code[found.start() : ended]
        opened = signature.find("(")
        closed = after_bracket(signature, opened)
        of_trait = owner is not None and owner.trait == TRAIT
        it = Function(
            source=self.source,
            name=found["name"],
            owner=owner.name if owner else None,
            trait=owner.trait if owner else None,
            is_public=found["pub"] == "pub" or of_trait,
            is_open=is_open,
            line=self.source.line(found.start()),
            clauses=clauses,
            params=parameters_of(signature[opened + 1 : closed - 1]),
            back=signature[closed:],
            generics=signature[found.end() - found.start() : opened],
            imports=imports,
        )
        self.source.functions.append(it)
        return stop

    def signature(self, at: int, clauses: list[Clause]) -> tuple[int | None, int]:
        """Where a signature ends, at its first clause, its body or a semicolon outside of brackets, and where the whole
        function does. Adds its clauses."""
        ended: int | None = None
        found = SIGNATURE.search(self.code, at)
        while found:
            if found[0] in ("(", "["):
                at = after_bracket(self.code, found.start())
            elif found[0] in CLAUSES:
                ended = ended or found.start()
                at = self.clause(found, clauses)
            elif found[0] == "where":
                at = found.end()
            else:
                is_body = found[0] == "{"
                return ended or found.start(), after_bracket(self.code, found.start()) if is_body else found.end()
            found = SIGNATURE.search(self.code, at)
        return ended, len(self.code)

    def clause(self, found: re.Match[str], clauses: list[Clause]) -> int:
        brace = self.code.index("{", found.end())
        stop = after_bracket(self.code, brace)
        if found[0] != "decreases":
            name = self.code[found.end() : brace].strip(" *\n\t")
            text = self.source.text[brace + 1 : stop - 1]
            clauses.append(Clause(found[0], name, text, self.source.line(found.start())))
        return stop


def read_source(crate: str, parts: list[str], file: str) -> Source:
    text = read(file)
    source = Source(crate, parts, file, text, without_tests(blanked(text, OUTSIDE_CODE)))
    Reader(source).read()
    return source
