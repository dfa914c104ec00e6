"""Walks over the words of a term, a signature or a case, which tell those that it doesn't bind."""

import re
from collections.abc import Callable

from .definitions import MODIFIERS, Block, head_of
from .repository import Found, Library
from .scopes import Scope
from .texts import CLOSING, OPENING, TOKEN, first_outside, with_depth

SIGNS = MODIFIERS | set(
    "→ × ↦ = | : [ ] . , ; ( ) { } λ ∀ _ @ ? elim let in do as where unfolding Type record data module use open coe"
    " hcom com ∨ ∧ mutual deriving".split()
)
BUILT_IN = set(
    "tt ∥ ∥₁ Ok Err Some None Unit absurd refl search grind omega rw rw⁻¹ simp grw cc hlevel assumption first_of cap"
    " arith Prim fst snd ap subst sym yes no IsProp IsSet Σ_prop_path T_prop ⊥ ⊤ 𝕀 ≡ ¬ ⊎ ℕ Self self result".split()
)
NUMBER = re.compile(r"[0-9][0-9a-fx_]*")
RECORD = re.compile(r"(pub )?(record|data)\b")
ENDS_PATTERN = ("|", "=", "→", ":", "λ", "elim", "]", "let", ";", "in")


class Walk:
    """One text, word by word. `rooms` has the names that are bound, by the brackets around; a case's pattern ends at
    its `=`."""

    def __init__(
        self, text: str, scope: Scope, bound: set[str], tell: Callable[[Found], None], block: Block | None
    ) -> None:
        self.text, self.scope, self.tell = text, scope, tell
        self.tokens = list(TOKEN.finditer(text))
        self.words = [token[0] for token in self.tokens]
        self.rooms = [set(bound)]
        self.head = block.name if block else None
        self.is_record = block is not None and RECORD.match(text.strip()) is not None
        self.pattern_end = self.end_of_pattern() if block and head_of(text) is None else -1

    def end_of_pattern(self) -> int:
        """The place of a case's `=`."""
        if first_outside(self.words, (":", "=")) != "=":
            return -1
        return next(at for at, (word, depth) in enumerate(with_depth(self.words)) if depth == 0 and word == "=")

    def run(self) -> None:
        at = 0
        while at < len(self.words):
            at = self.step(at)

    def step(self, at: int) -> int:
        """Looks at the word at a place, and gives the place of the one to look at next."""
        word = self.words[at]
        if word in OPENING:
            return self.enter(at)
        if word in CLOSING:
            return self.leave(at)
        if word == ";" and self.is_at(at + 2, "="):
            return at + 2
        if word == "λ":
            return self.bind(at + 1, (".",)) + 1
        if word == "let":
            return self.bind(at + 1, ("=", ":"))
        if word == "where" and not self.is_record:
            return self.hide(at)
        if word[0] == '"' or word in SIGNS or NUMBER.fullmatch(word) or self.is_projection(at):
            return at + 1
        return self.name(at)

    def is_at(self, at: int, word: str) -> bool:
        return at < len(self.words) and self.words[at] == word

    def touch(self, at: int) -> bool:
        """Whether nothing stands between the word at a place and the one before it."""
        return self.tokens[at - 1].end() == self.tokens[at].start()

    def is_projection(self, at: int) -> bool:
        """Whether it is a field of what stands before it, which was looked at."""
        return at > 1 and self.words[at - 1] == "." and self.touch(at - 1) and self.touch(at)

    def enter(self, at: int) -> int:
        """Opens a bracket: `(x y : A)` and `{x y : A}` bind in what follows, and `{f = ..}` names a field."""
        word = self.words[at]
        self.rooms.append(set())
        end = self.end_of_names(at + 1)
        if self.is_at(end, ":") and end > at + 1 and word != "[":
            self.rooms[-2] |= set(self.words[at + 1 : end])
            return end + 1
        names_field = word == "{" and self.is_at(at + 2, "=") and self.words[at + 1] not in SIGNS
        return at + 2 if names_field else at + 1

    def end_of_names(self, at: int) -> int:
        while at < len(self.words) and self.words[at] not in SIGNS:
            at += 1
        return at

    def leave(self, at: int) -> int:
        if len(self.rooms) > 1:
            self.rooms.pop()
        return at + 1

    def bind(self, at: int, ends: tuple[str, ...]) -> int:
        """Binds the names from a place up to one of these words."""
        while at < len(self.words) and self.words[at] not in ends:
            if self.words[at] not in SIGNS:
                self.rooms[-1].add(self.words[at])
            at += 1
        return at

    def hide(self, at: int) -> int:
        """Binds the local definitions behind a `where`, whose names hide others below."""
        heads = [head_of(line) for line in self.text[self.tokens[at].end() :].split("\n") if line.strip()]
        self.rooms[0] |= {head.name for head in heads if head}
        return at + 1

    def is_bound(self, word: str) -> bool:
        return word == self.head or any(word in room for room in self.rooms)

    def chain_at(self, at: int) -> list[str]:
        """A word, with those that are joined to it by full stops."""
        chain = [self.words[at].strip("«»")]
        while self.is_at(at + 1, ".") and at + 2 < len(self.words) and self.touch(at + 1) and self.touch(at + 2):
            chain.append(self.words[at + 2])
            at += 2
        return chain

    def is_in_alternative(self, at: int) -> bool:
        """Whether it stands in a pattern of elim, which ends at `↦`."""
        if at <= self.pattern_end:
            return False
        return next((word for word in self.words[at:] if word == "↦" or word in ENDS_PATTERN), None) == "↦"

    def name(self, at: int) -> int:
        """Looks at a name: a field or a variable of a pattern is bound, what else isn't is told."""
        word, chain = self.words[at], self.chain_at(at)
        end = at + 2 * len(chain) - 1
        if self.is_record and len(chain) == 1 and self.is_at(end, ":") and len(self.rooms) == 1:
            self.rooms[0].add(word)
        elif self.is_bound(word):
            pass
        elif at < self.pattern_end or self.is_in_alternative(at):
            self.take_in_pattern(word, chain, self.rooms[0 if at < self.pattern_end else -1])
        else:
            self.take(word, chain)
        return end

    def take_in_pattern(self, word: str, chain: list[str], room: set[str]) -> None:
        """Tells a constructor or an operator, and binds another word."""
        meaning = self.scope.find(chain)
        is_operator = meaning is not None and isinstance(meaning.found, Block) and self.scope.is_operator(word)
        if meaning and (meaning.is_constructor or is_operator):
            self.tell(meaning.found)
        elif not (meaning and isinstance(meaning.found, Library) and (word[0].isupper() or not word[0].isalpha())):
            room.add(word)

    def take(self, word: str, chain: list[str]) -> None:
        meaning = self.scope.find(chain)
        if meaning:
            self.tell(meaning.found)
        elif word not in BUILT_IN and len(word) > 1 and "?" not in word:
            self.scope.unknown(".".join(chain))
