"""Texts of definitions and of Rust: tokens, brackets, and what is put out so that places and lines stay."""

import os
import re
from collections.abc import Iterable, Iterator
from pathlib import Path

NAME = r"[^\s(){}.;,@\"«»]+"
TOKEN = re.compile(rf'"(?:\\.|[^"\\])*"|«{NAME}»|{NAME}|\S')
OPENING = ("(", "[", "{")
CLOSING = (")", "]", "}")
BRACKET = re.compile(r"[()\[\]{}]")


def read(file: str) -> str:
    return Path(file).read_text(encoding="utf-8")


def files_below(folder: str, suffix: str) -> Iterator[str]:
    """The files with this suffix, those of a folder before those of the folders in it."""
    for at, folders, files in os.walk(folder):
        folders.sort()
        yield from (f"{at}/{name}" for name in sorted(files) if name.endswith(suffix))


def spaces(text: str) -> str:
    """As much room, in as many lines."""
    return re.sub(r"[^\n]", " ", text)


def blanked(text: str, pattern: re.Pattern[str]) -> str:
    """The text with what the pattern finds put out."""
    return pattern.sub(lambda found: spaces(found[0]), text)


def tokens(text: str) -> list[str]:
    return TOKEN.findall(text)


def with_depth(words: Iterable[str]) -> Iterator[tuple[str, int]]:
    """Each word with the number of brackets around it; a bracket is outside of itself."""
    depth = 0
    for word in words:
        if word in CLOSING:
            depth -= 1
        yield word, depth
        if word in OPENING:
            depth += 1


def first_outside(words: Iterable[str], wanted: tuple[str, ...]) -> str | None:
    """The first of the wanted words outside of brackets."""
    return next((word for word, depth in with_depth(words) if depth == 0 and word in wanted), None)


def after_bracket(text: str, at: int) -> int:
    """The place after the bracket that closes the first one from this place on."""
    depth = 0
    for found in BRACKET.finditer(text, at):
        depth += 1 if found[0] in OPENING else -1
        if depth == 0 and found[0] in CLOSING:
            return found.end()
    return len(text)


def parted(text: str, opening: str, closing: str) -> list[str]:
    """What stands between commas outside of these brackets; more may close than open, as by an arrow."""
    parts, depth, start = [], 0, 0
    for at, sign in enumerate(text + ","):
        depth += (sign in opening) - (sign in closing)
        if sign == "," and depth <= 0:
            parts.append(text[start:at].strip())
            depth, start = 0, at + 1
    return [part for part in parts if part]


def indent_of(line: str) -> int:
    return len(line) - len(line.lstrip())
