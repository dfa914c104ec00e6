"""Modules of definitions, the files of specs/ and proofs/."""

import re
from dataclasses import dataclass, field
from typing import NamedTuple

from .imports import Imports
from .texts import NAME, blanked, first_outside, indent_of, read, tokens

MODIFIERS = {"abbrev", "pub", "unfoldable", "axiom"}
KINDS = MODIFIERS | {"record", "data"}
COMMENT = re.compile(r"(?<![^\s(){}.;,@])--[^\n]*|\{-.*?-\}", re.DOTALL)
PATTERN = re.compile(r"^\s*pattern (?=abbrev )")
INNER = re.compile(r"\s*(?:abbrev |unfoldable |pub )*(module|mutual)\b")
USE = re.compile(r"\s*(pub )?use\b\s*")
MOD = re.compile(r"\s*(pub )?mod\b")
CONSTRUCTOR = re.compile(rf"^\s+(?:pub\s+)?({NAME})\s*:", re.MULTILINE)
NAMED = re.compile(rf"«?({NAME})")
FIXITIES = ("infixl", "infixr", "infix")
PASSED_OVER = ("package", "ruleset", "open")
MODULE = "module"


class Part(NamedTuple):
    """A signature, a case or a record, with its first line."""

    line: int
    text: str


class Head(NamedTuple):
    """How a definition begins."""

    kinds: list[str]
    name: str


@dataclass(eq=False)
class Block:
    """A definition, or the head of a module with parameters, which has no name."""

    module: "Module"
    name: str
    line: int
    outer: "Block | None"
    parts: list[Part] = field(default_factory=list)

    @property
    def is_module(self) -> bool:
        return self.name == MODULE

    @property
    def count(self) -> int:
        """Its lines, but for blank ones."""
        return sum(bool(line.strip()) for part in self.parts for line in part.text.split("\n"))

    @property
    def key(self) -> tuple[str, int]:
        return self.module.path, self.line


@dataclass(eq=False)
class Module:
    """A file of definitions. `own` has a data's constructors too, each with the data."""

    path: str
    file: str
    own: dict[str, Block] = field(default_factory=dict)
    imports: Imports = field(default_factory=Imports)
    again: dict[str, tuple[str, str]] = field(default_factory=dict)
    """What it imports and passes on."""
    constructors: set[str] = field(default_factory=set)


class Room(NamedTuple):
    """A module in a file, or the file: the indentation of its definitions, and its head."""

    indent: int
    head: Block | None


def head_of(text: str) -> Head | None:
    """How a text begins, if a definition begins with it."""
    words, kinds = PATTERN.sub("", text).split(), []
    while words and words[0] in KINDS:
        kinds.append(words.pop(0))
    name = NAMED.match(words[0]) if words else None
    if not name or not kinds and first_outside(tokens(text), (":", "=")) != ":":
        return None
    return Head(kinds, name[1])


class Parser:
    """Reads a file of definitions line by line."""

    def __init__(self, module: Module) -> None:
        self.module = module
        self.lines = blanked(read(module.file), COMMENT).split("\n")
        self.rooms = [Room(0, None)]
        self.current: Block | None = None
        self.fixities: list[Part] = []

    def parse(self) -> Module:
        at = 0
        while at < len(self.lines):
            at = self.item(at) if self.lines[at].strip() else at + 1
        return self.module

    def refuse(self, at: int, why: str) -> SystemExit:
        return SystemExit(f"believe: {self.module.file}:{at + 1}: {why}: {self.lines[at].strip()[:60]}")

    def item(self, at: int) -> int:
        """Reads what begins at a line, and gives the line behind it."""
        indent = indent_of(self.lines[at])
        while len(self.rooms) > 1 and indent < self.rooms[-1].indent:
            self.rooms.pop()
            self.current = None
        if indent > self.rooms[-1].indent:
            raise self.refuse(at, "a line that belongs to no definition")
        end = self.end_of(at, indent)
        self.take(Part(at + 1, "\n".join(line for line in self.lines[at:end] if line.strip())), end)
        return end

    def end_of(self, at: int, indent: int) -> int:
        """The line behind what begins at a line: a definition goes on in deeper lines, and a module's head ends."""
        is_inner = INNER.match(self.lines[at]) is not None
        end = at + 1
        while end < len(self.lines) and (not self.lines[end].strip() or indent_of(self.lines[end]) > indent):
            if is_inner and " ".join(self.lines[at:end]).rstrip().endswith(("where", "mutual")):
                break
            end += 1
        return end

    def take(self, part: Part, end: int) -> None:
        first = part.text.split()[0]
        if INNER.match(part.text):
            self.enter(part, end)
        elif use := USE.match(part.text):
            names = self.module.imports.add(part.text[use.end() :])
            self.module.again |= {name: self.module.imports.uses[name] for name in names if use[1]}
        elif MOD.match(part.text) or first in PASSED_OVER:
            pass
        elif first in FIXITIES:
            self.fixities.append(part)
        elif first == "unfolding":
            if self.current:
                self.current.parts.append(part)
        else:
            self.define(part)

    def enter(self, part: Part, end: int) -> None:
        inner = next((line for line in self.lines[end:] if line.strip()), "")
        head = Block(self.module, MODULE, part.line, self.rooms[-1].head, [part])
        self.rooms.append(Room(indent_of(inner), head))
        self.current = None

    def define(self, part: Part) -> None:
        """Begins a definition, or adds a case to the one that was begun."""
        head = head_of(part.text)
        if head and not (self.current and head.name == self.current.name and not head.kinds):
            self.current = Block(self.module, head.name, part.line, self.rooms[-1].head, self.fixities)
            self.fixities = []
            self.module.own.setdefault(head.name, self.current)
            if "data" in head.kinds:
                self.construct(self.current, part.text)
        if self.current is None:
            raise self.refuse(part.line - 1, "a case of no definition")
        self.current.parts.append(part)

    def construct(self, data: Block, text: str) -> None:
        for name in CONSTRUCTOR.findall(text.partition("\n")[2]):
            self.module.own.setdefault(name, data)
            self.module.constructors.add(name)


def parsed(path: str, file: str) -> Module:
    return Parser(Module(path, file)).parse()
