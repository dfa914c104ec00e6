"""Lines of UTF-8 that come in pieces."""

from .texts import LINE_LIMIT


class Lines:
    """Cuts pieces of bytes into lines, without their ends, and looks at each byte once.

    Of a line that has more than `limit` bytes it gives the first `limit + 1`, at once when they are there.
    """

    def __init__(self, limit: int = LINE_LIMIT) -> None:
        self._limit = limit
        self._line = bytearray()

    def cut(self, piece: bytes) -> list[bytes]:
        """The lines that this piece ends, or makes too long."""
        lines: list[bytes] = []
        *ends, begin = piece.split(b"\n")
        for part in ends:
            lines += self._add(part) + self.last()
        return lines + self._add(begin)

    def last(self) -> list[bytes]:
        """The line that has begun, ended here; none where it was given for being too long."""
        is_given = self._is_too_long()
        line = bytes(self._line)
        self._line.clear()
        return [] if is_given else [line]

    def _add(self, part: bytes) -> list[bytes]:
        """Goes on with the line, and gives it where that makes it too long."""
        was_given = self._is_too_long()
        self._line += part[:self._limit + 1 - len(self._line)]
        return [bytes(self._line)] if self._is_too_long() and not was_given else []

    def _is_too_long(self) -> bool:
        return len(self._line) > self._limit


def text_of(line: bytes, limit: int = LINE_LIMIT) -> str:
    """The text of a line. ValueError where it is too long, or no UTF-8."""
    if len(line) > limit:
        raise ValueError(f"a line has at most {limit} bytes")
    try:
        return line.decode()
    except UnicodeDecodeError as fault:
        raise ValueError(f"byte {fault.start} of the line is no UTF-8") from fault
