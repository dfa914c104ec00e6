"""Imports, as modules of definitions and `ghost use` of Rust spell them."""

import re
from dataclasses import dataclass, field

GHOST_USE = re.compile(r"ghost\s+use\s+([^;]+);")
LISTED = re.compile(r"(\S+?)\.\{(.*)\}$")


@dataclass
class Imports:
    """What an importing text may name."""

    uses: dict[str, tuple[str, str]] = field(default_factory=dict)
    """A name, with the module that has it and its name there."""

    aliases: dict[str, str] = field(default_factory=dict)
    """A short name of a module, with its path."""

    def add(self, said: str) -> list[str]:
        """Adds `PATH.{NAME, NAME as NAME}` or `PATH as NAME`, and gives the names that were listed."""
        said = " ".join(said.split())
        listed = LISTED.match(said)
        if not listed:
            words = said.split(" as ")
            self.aliases[words[-1].split(".")[-1].strip()] = words[0].strip()
            return []
        pairs = [[word.strip().strip("«»") for word in item.split(" as ")] for item in listed[2].split(",")]
        named = {pair[-1]: (listed[1], pair[0]) for pair in pairs if pair[0]}
        self.uses |= named
        return list(named)


def ghost_uses(text: str, outer: Imports | None = None) -> Imports:
    """The ghost imports of a text, after those of the text around it."""
    imports = Imports(dict(outer.uses), dict(outer.aliases)) if outer else Imports()
    for found in GHOST_USE.finditer(text):
        imports.add(found[1])
    return imports
