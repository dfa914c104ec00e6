"""A link that gives what it reads out of order and twice."""

import random

from chrrep.link import (
    Batch,
    Count,
    Entry,
    Heard,
    Lease,
    Link,
    Mark,
    Named,
    Position,
    Program,
    Reading,
    Rest,
    SetAside,
    State,
)


class Jumbled(Link):
    """A link that gives what it reads out of order and twice, what was read long ago among it, and appends twice."""

    def __init__(self, link: Link, chance: random.Random) -> None:
        super().__init__()
        self.link, self.chance = link, chance
        self.origin, self.writer = link.origin, link.writer
        self.seen: list[Entry] = []

    def append(self, batch: Batch) -> None:
        for _ in range(self.chance.randint(1, 2)):
            self.link.append(batch)

    def settle(self, entry: Entry) -> bool:
        return self.link.settle(entry)

    def read(self, after: Position, wait: float = 0.0) -> Reading:
        new, generation = self.link.read(after, wait)
        self.seen += new
        given = new + self.chance.choices(self.seen, k=min(20, len(self.seen)))
        self.chance.shuffle(given)
        return Reading(given, generation)

    def state(self) -> State:
        return self.link.state()

    def mark(self) -> Mark:
        return self.link.mark()

    def count(self) -> Count:
        return self.link.count()

    def begin(self, program: Program) -> None:
        self.link.begin(program)

    def newest(self) -> dict[int, int]:
        return self.link.newest()

    def keep(self, state: State, is_last: bool = False, rest: Rest = Rest()) -> bool:
        return self.link.keep(state, is_last, rest)

    def names(self, place: int = 0) -> list[Named]:
        return self.link.names(place)

    def seal(self, seconds: float) -> None:
        self.link.seal(seconds)

    def set_aside(self, refused: SetAside) -> None:
        self.link.set_aside(refused)

    def refused(self) -> list[SetAside]:
        return self.link.refused()

    def members(self) -> list[Heard]:
        return self.link.members()

    def _leases(self) -> dict[int, Lease]:
        raise NotImplementedError

    def _hold(self, origin: int, is_allotted: bool, until: float | None) -> bool:
        raise NotImplementedError

    def _beat(self, position: str) -> None:
        raise NotImplementedError

    def _let_go(self) -> None:
        self.link.close()
