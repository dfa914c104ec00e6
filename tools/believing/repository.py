"""The repository's crates: their modules of definitions, their Rust, and what a path or a name means in them."""

import os
from collections.abc import Callable, Sequence
from dataclasses import dataclass

from .definitions import Block, Module, parsed
from .rust import TRAIT, Function, RustType, Source, read_source
from .texts import files_below

ROOT = "Rattle"
SPECS = "specs"
MOST_PASSED_ON = 9
NO_PARTS = ("lib", "main", "mod")
CONSTANTS = "TheConstants"
VARIANTS = "TheVariants"


@dataclass(frozen=True)
class Proof:
    """A word of proofs/."""

    path: str


@dataclass(frozen=True)
class Constant:
    """A constant of Rust."""

    path: str


@dataclass(frozen=True)
class ModuleName:
    path: str


@dataclass(frozen=True)
class Library:
    """A word that is not the repository's, or needn't be looked at."""


Found = Block | RustType | Proof | Constant | ModuleName | Library

Crates = dict[str, dict[str, Source]]
"""Each crate's files of Rust, by the paths of their modules."""


class Repository:
    def __init__(self, top: str) -> None:
        self.top = top
        self.files: dict[str, str] = {}
        self.parsed: dict[str, Module] = {}
        self.sources: Crates = {}
        self.types: dict[tuple[str, str], list[RustType]] = {}
        self.warned: list[str] = []
        for crate in self.crates_of(f"{top}/crates"):
            self.files |= self.modules_of(crate)
            self.sources[crate] = self.sources_of(crate)
            self.note_types(crate)
            self.note_models(crate)

    @property
    def crates(self) -> list[str]:
        return list(self.sources)

    def crates_of(self, folder: str) -> list[str]:
        names = os.listdir(folder) if os.path.isdir(folder) else []
        return sorted(name for name in names if os.path.isdir(f"{folder}/{name}/src"))

    def modules_of(self, crate: str) -> dict[str, str]:
        """The files of definitions, by their paths as modules. They are read when they are asked for."""
        folder = f"{self.top}/crates/{crate}"
        files = [file for part in ("specs", "proofs") for file in files_below(f"{folder}/{part}", ".antt")]
        return {self.module_path(crate, os.path.relpath(file, folder)): file for file in files}

    def module_path(self, crate: str, file: str) -> str:
        inside = file.removesuffix(".antt").split(os.sep)
        if len(inside) == 2 and inside[-1] == "Lib":
            inside.pop()
        return ".".join([ROOT, crate, *inside])

    def sources_of(self, crate: str) -> dict[str, Source]:
        folder = f"{self.top}/crates/{crate}/src"
        sources: dict[str, Source] = {}
        for file in files_below(folder, ".rt"):
            inside = os.path.relpath(file, folder).removesuffix(".rt").split(os.sep)
            parts = [part for part in inside if part not in NO_PARTS]
            if parts[:1] != ["tests"]:
                sources["::".join(parts)] = read_source(crate, parts, file)
        return sources

    def note_types(self, crate: str) -> None:
        for source in self.sources[crate].values():
            for it in source.types:
                self.types.setdefault((crate, it.name), []).append(it)

    def note_models(self, crate: str) -> None:
        models = [(source, model) for source in self.sources[crate].values() for model in source.models]
        for source, model in models:
            for it in self.types.get((crate, model.name), []):
                it.is_model = True
                it.members += source.members(model.start, model.stop, model.imports, set())

    def short(self, place: str) -> str:
        """A file below the top, with its line if it has one."""
        return os.path.relpath(place, self.top)

    def warn(self, text: str) -> None:
        if text not in self.warned:
            self.warned.append(text)

    def module(self, path: str) -> Module | None:
        if path not in self.parsed and path in self.files:
            self.parsed[path] = parsed(path, self.files[path])
        return self.parsed.get(path)

    def named(self, path: str, name: str, depth: int = 0) -> Found | None:
        """What a name of a module means."""
        words = path.split(".")
        if words[0] != ROOT or len(words) < 2 or words[1] not in self.sources:
            return Library()
        if words[2:3] == ["proofs"]:
            return Proof(f"{path}.{name}")
        if words[2:4] == ["specs", "declared"]:
            return self.declared(words[1], words[4:], name)
        module = self.module(path)
        if module and name in module.own:
            return module.own[name]
        if module and name in module.again and depth < MOST_PASSED_ON:
            return self.named(*module.again[name], depth + 1)
        if f"{path}.{name}" in self.files:
            return ModuleName(f"{path}.{name}")
        if module:
            return ModuleName(module.imports.aliases[name]) if name in module.imports.aliases else None
        return self.part_of(path)

    def defined(self, word: str) -> list[Block]:
        """The definitions of a word in all files of definitions, those of private contracts too, by file."""
        modules = [self.module(path) for path in self.files if path.split(".")[2] == SPECS]
        found = [it.own[word] for it in modules if it is not None and word in it.own]
        return sorted(found, key=lambda it: (it.module.file, it.line))

    def part_of(self, path: str) -> Found | None:
        """The definition whose part a path names, as a data's constructors."""
        above, _, last = path.rpartition(".")
        outer = self.module(above)
        return outer.own.get(last) if outer else None

    def declared(self, crate: str, rest: list[str], name: str) -> Found | None:
        """A type of Rust, by the path of its module, the type, and maybe its variants; or a constant, by its module."""
        if rest[-1:] == [CONSTANTS]:
            source = self.sources[crate].get("::".join(rest[:-1]))
            known = source is not None and name in source.constants
            return Constant("::".join([crate, *rest[:-1], name])) if known else None
        path = [word for word in rest if word != VARIANTS]
        for word in (name, *reversed(path)):
            if found := self.types.get((crate, word)):
                return next((it for it in found if self.lies_at(it, path)), found[0])
        return Library() if any(it.name == name for it in self.functions(crate)) else None

    def lies_at(self, it: RustType, path: list[str]) -> bool:
        parts = it.source.parts
        return parts == path[: len(parts)] and len(parts) >= len(path) - 1

    def rust_type(self, source: Source, path: str) -> RustType | None:
        """The type of the repository that a path in a file of Rust names."""
        words = path.split("::")
        whole = source.uses.get(words[0], words[0]).split("::")
        if whole[0] in ("std", "core"):
            return None
        crate = whole[0] if whole[0] in self.sources else source.crate
        found = self.types.get((crate, (whole if len(words) == 1 else words)[-1]), [])
        return next((it for it in found if it.source is source), found[0] if found else None)

    def functions(self, crate: str) -> list[Function]:
        return [it for source in self.sources[crate].values() for it in source.functions]

    def public(self, crate: str) -> list[Function]:
        """The public functions of a crate: those that a path of pub modules or a pub use leads to."""
        opening = Opening(self.sources, crate)
        return [it for it in self.functions(crate) if self.is_public(it) and self.is_led_to(opening, it)]

    def is_led_to(self, opening: "Opening", it: Function) -> bool:
        """A method is found where its type is, in whichever file it stands."""
        if it.owner is None:
            return opening.leads_to(it.source, it.name)
        return any(opening.leads_to(kind.source, kind.name) for kind in self.types[it.source.crate, it.owner])

    def is_public(self, it: Function) -> bool:
        types = self.types.get((it.source.crate, it.owner), []) if it.owner else []
        of_public = not it.owner or bool(types) and types[0].is_public
        return it.is_public and it.is_open and of_public and it.trait in (None, TRAIT) and it.name != "main"

    def find(self, path: str) -> tuple[list[Function], str]:
        """The functions that a name means, and what they are called together."""
        if path in self.sources:
            return self.public(path), path
        words = path.split("::")
        crates = [words[0]] if words[0] in self.sources else self.crates
        rest = words[1:] if words[0] in self.sources else words
        picks: tuple[Callable[[str], list[Function]], ...] = (self.public, self.functions)
        for pick in picks:
            functions = [it for crate in crates for it in pick(crate)]
            if found := functions_named(functions, rest):
                paths = sorted(it.path for it in found)
                if len(set(paths)) > 1 and pick == self.public:
                    raise SystemExit(f"believe: {path} may be each of {', '.join(paths)}")
                return found[:1], found[0].short
            if found := functions_of(functions, rest):
                return found, f"{found[0].source.crate}::{rest[-1]}"
        raise SystemExit(f"believe: there is no function, type or crate {path}")


def functions_named(functions: Sequence[Function], words: list[str]) -> list[Function]:
    """Those whose path ends so, or else whose owner and name are these. Of a name alone free functions come first."""
    found = [it for it in functions if [*it.source.parts, *it.inside][-len(words) :] == words]
    found = found or [it for it in functions if it.inside == words]
    free = [it for it in found if not it.owner]
    return free if free and len(words) == 1 else found


def functions_of(functions: Sequence[Function], words: list[str]) -> list[Function]:
    """Those of the type with this path or name."""
    of_type = [it for it in functions if it.owner == words[-1]]
    return [it for it in of_type if len(words) == 1 or it.source.parts[-len(words) + 1 :] == words[:-1]]


class Opening:
    """What paths of pub modules and pub uses of a crate lead to."""

    def __init__(self, sources: Crates, crate: str) -> None:
        self.sources, self.crate = sources, crate
        self.modules: set[tuple[str, ...]] = set()
        self.names: set[tuple[str, tuple[str, ...]]] = set()
        self.visit(())

    def visit(self, parts: tuple[str, ...]) -> None:
        source = self.sources[self.crate].get("::".join(parts))
        if source is None or parts in self.modules:
            return
        self.modules.add(parts)
        self.names |= {self.target(parts, path.split("::")) for _, path in source.again}
        for inner in source.opened:
            self.visit((*parts, inner))

    def target(self, parts: tuple[str, ...], words: list[str]) -> tuple[str, tuple[str, ...]]:
        """The crate and the path in it that a use in a module means."""
        if words[0] == "crate":
            return self.crate, tuple(words[1:])
        if words[0] == "self":
            return self.crate, (*parts, *words[1:])
        if words[0] in self.sources:
            return words[0], tuple(words[1:])
        return self.crate, (*parts, *words)

    def leads_to(self, source: Source, name: str) -> bool:
        parts = tuple(source.parts)
        return parts in self.modules or (self.crate, (*parts, name)) in self.names
