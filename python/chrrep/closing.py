"""What a `with` closes."""

from abc import ABC, abstractmethod
from types import TracebackType
from typing import Self


class Closing(ABC):
    """It is closed as a `with` is left, however that is."""

    @abstractmethod
    def close(self) -> None:
        """Lets go of what it holds. To close twice is no fault."""

    def __enter__(self) -> Self:
        return self

    def __exit__(
        self, kind: type[BaseException] | None, error: BaseException | None, trace: TracebackType | None
    ) -> None:
        self.close()
