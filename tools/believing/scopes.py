"""What the words of one text mean."""

from typing import NamedTuple

from .definitions import Block, Module
from .imports import Imports
from .repository import ROOT, Constant, Found, Library, ModuleName, Proof, Repository
from .rust import RustType, Source

HOLE = "◌"


class Meaning(NamedTuple):
    """What a word means, and its name where that stands."""

    found: Found
    name: str

    @property
    def is_constructor(self) -> bool:
        """Whether it can stand in a pattern without being bound there."""
        if isinstance(self.found, Block):
            return self.name in self.found.module.constructors
        return isinstance(self.found, RustType | Proof)


class Scope:
    """The words that a text can name: those that its file imports, and its module's own; those of a clause, the types
    and constants that its file uses."""

    def __init__(
        self,
        repository: Repository,
        imports: Imports,
        place: str,
        module: Module | None = None,
        source: Source | None = None,
    ) -> None:
        self.repository, self.imports, self.place = repository, imports, place
        self.source = source
        self.own = module.own if module else {}
        self.signs = self.operators()

    def operators(self) -> dict[str, str]:
        """Each sign of an operator, with the operator's name: `⊕` stands for `◌⊕◌`."""
        signs: dict[str, str] = {}
        for name in (*self.imports.uses, *self.own):
            if HOLE in name:
                for sign in filter(None, name.split(HOLE)):
                    signs.setdefault(sign, name)
        return signs

    def is_operator(self, word: str) -> bool:
        return word in self.signs

    def find(self, chain: list[str]) -> Meaning | None:
        """What a word means, or a word of a module that is named before it."""
        word = chain[0]
        if word not in self.imports.uses and word not in self.own:
            word = self.signs.get(word, word)
        if word in self.own:
            return Meaning(self.own[word], word)
        if word in self.imports.uses:
            return self.imported(word, chain)
        if word in self.imports.aliases and len(chain) > 1:
            return self.inside(self.imports.aliases[word], chain[1])
        if word == ROOT and len(chain) > 3:
            return self.inside(".".join(chain[:-1]), chain[-1])
        return self.of_source(self.source, word) if self.source and word[0].isupper() else None

    def imported(self, word: str, chain: list[str]) -> Meaning:
        path, name = self.imports.uses[word]
        meaning = self.inside(path, name)
        if isinstance(meaning.found, ModuleName) and len(chain) > 1:
            return self.inside(meaning.found.path, chain[1])
        return meaning

    def inside(self, path: str, name: str) -> Meaning:
        found = self.repository.named(path, name)
        if found is None:
            self.unknown(f"{path}.{name}")
        return Meaning(found or Library(), name)

    def of_source(self, source: Source, word: str) -> Meaning | None:
        """A type, a constant or an import of a clause's file."""
        if it := self.repository.rust_type(source, word):
            return Meaning(it, word)
        if word in source.constants:
            return Meaning(Constant("::".join([source.crate, *source.parts, word])), word)
        if word in source.uses:
            path = source.uses[word]
            is_library = path.split("::")[0] in ("std", "core")
            return Meaning(Library() if is_library else Constant(path), word)
        return None

    def unknown(self, word: str) -> None:
        self.repository.warn(f"{self.repository.short(self.place)}: the word {word} is not found")
