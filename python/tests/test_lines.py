"""Texts that are longer than any program, and lines of a service that are longer than any command, or come many at
once, as bytes to a process."""

import resource
import socket
import subprocess
import unittest

from chrrep.node import program_path

LIMIT = 1_048_576
"""The most bytes of a line, without its end."""

MAX_TEXT = 65_536
"""The most bytes of a program text."""

ROOM = 100 << 20
"""Bytes of memory in which more goes through a process than it may hold."""

SHOW = b'["show",1]'
SECONDS = 60.0


def answers(lines: bytes) -> bytes:
    """What a service of the program without rules answers to these lines."""
    words, given = [program_path(), "serve"], b"---\n" + lines
    end = subprocess.run(words, input=given, capture_output=True, timeout=SECONDS, check=True)
    verdict, _, rest = end.stdout.partition(b"\n")
    assert verdict == b"accepted: rules 0, cases 0", verdict
    return rest


class LongTexts(unittest.TestCase):
    """They are refused, whatever comes after them, and no more of them is held than tells that."""

    TOLD = {"check": b"refused 2\n", "run": b"refused 2\n", "explain": b"fault 2: the text has more than 65536 bytes\n"}

    def test_no_more_is_held_than_a_text(self) -> None:
        """A text of 400 MB goes through a process that may have 100 MB."""
        for verb, told in self.TOLD.items():
            for piece in (b"%" * (1 << 20), b"% a text\n" * 100_000):
                with self.subTest(verb, piece=piece[:10]):
                    process = subprocess.Popen(
                        [program_path(), verb],
                        stdin=subprocess.PIPE,
                        stdout=subprocess.PIPE,
                        preexec_fn=lambda: resource.setrlimit(resource.RLIMIT_AS, (ROOM, ROOM)),
                    )
                    assert process.stdin and process.stdout
                    with process:
                        for _ in range((400 << 20) // len(piece)):
                            process.stdin.write(piece)
                        process.stdin.close()
                        self.assertEqual(process.stdout.read(), told)
                        self.assertEqual(process.wait(), 1)

    def test_around_the_limit(self) -> None:
        """The divider may come after a text at its limit, and after one that is longer it changes nothing."""
        for end in (b"", b"---", b"---\n", b"---\r\n" + SHOW + b"\n"):
            for length in range(MAX_TEXT - 1, MAX_TEXT + 8):
                text = b" " * (length - 1) + b"\n"
                accepted = b"accepted: rules 0, cases 0\n" + (b"true\n" if SHOW in end else b"")
                expected = (0, accepted) if length <= MAX_TEXT else (1, b"refused 2\n")
                with self.subTest(length=length, end=end):
                    ended = subprocess.run(
                        [program_path(), "run"], input=text + end, capture_output=True, timeout=SECONDS, check=False
                    )
                    self.assertEqual((ended.returncode, ended.stdout), expected)

    def test_many_commands_after_a_text(self) -> None:
        """What comes after the divider counts for no text."""
        lines = (SHOW + b"\n") * 20_000
        for text in (b"---\n", b" " * (MAX_TEXT - 1) + b"\n---\n"):
            ended = subprocess.run(
                [program_path(), "run"], input=text + lines, capture_output=True, timeout=SECONDS, check=True
            )
            self.assertEqual(ended.stdout, b"accepted: rules 0, cases 0\n" + b"true\n" * 20_000)


class LongLines(unittest.TestCase):
    def check(self, rows: list[tuple[bytes, bytes]]) -> None:
        for lines, expected in rows:
            with self.subTest(start=lines[:20], length=len(lines), end=lines[-20:]):
                self.assertEqual(answers(lines), expected)

    def test_at_the_limit(self) -> None:
        full, longer = SHOW + b" " * (LIMIT - 10), SHOW + b" " * (LIMIT - 9)
        self.check(
            [(full + end, b"true\n") for end in (b"\n", b"\r\n", b"\r")]
            + [(longer + end, b"refused 30\n") for end in (b"\n", b"\r\n", b"\r", b"")]
        )

    def test_in_many_pieces(self) -> None:
        """Such a line is refused once, where it ends, unless it is blank. The next line is answered."""
        room = b" " * (2 * LIMIT)
        self.check(
            [
                (SHOW + room + b"\n" + SHOW + b"\n", b"refused 30\ntrue\n"),
                (room + SHOW + b"\n" + SHOW + b"\n", b"refused 30\ntrue\n"),
                (room + b"x \n" + SHOW + b"\n", b"refused 30\ntrue\n"),
                (room + b"\n" + SHOW + b"\n", b"true\n"),
                (b"\t" + room + b"\t\r\n" + SHOW + b"\n", b"true\n"),
                (room + b"\r \n" + SHOW + b"\n", b"refused 30\ntrue\n"),
                (room + b"\r\r\n" + SHOW + b"\n", b"refused 30\ntrue\n"),
                (b"\r" + room + b"\n" + SHOW + b"\n", b"refused 30\ntrue\n"),
                (room + b"\r", b""),
                (room + b"x", b"refused 30\n"),
            ]
        )

    def test_where_it_is_cut(self) -> None:
        """The first byte that is no space may be the last one that is held, or come after it."""
        rows = []
        for spaces in range(LIMIT, LIMIT + 3):
            blank = b" " * spaces
            rows += [(blank + b"x\n", b"refused 30\n"), (blank + b"\r\n", b"")]
            rows.append((blank + b"\r" + b" " * 9_000, b"refused 30\n"))
        self.check(rows)

    def test_no_more_is_held_than_a_line(self) -> None:
        """A line of 400 MB goes through a process that may have 100 MB."""
        process = subprocess.Popen(
            [program_path(), "serve"],
            stdin=subprocess.PIPE,
            stdout=subprocess.PIPE,
            preexec_fn=lambda: resource.setrlimit(resource.RLIMIT_AS, (ROOM, ROOM)),
        )
        assert process.stdin and process.stdout
        with process:
            process.stdin.write(b"---\n")
            for _ in range(400):
                process.stdin.write(b"7" * (1 << 20))
            process.stdin.write(b"\n" + SHOW + b"\n")
            process.stdin.close()
            self.assertEqual(process.stdout.read(), b"accepted: rules 0, cases 0\nrefused 30\ntrue\n")
        self.assertEqual(process.returncode, 0)


class ManyLines(unittest.TestCase):
    def writes(self, parts: list[bytes]) -> list[bytes]:
        """What a service writes at once: each part of its input comes when the one before was answered."""
        ours, theirs = socket.socketpair(socket.AF_UNIX, socket.SOCK_SEQPACKET)
        output = theirs.fileno()
        with ours, subprocess.Popen([program_path(), "serve"], stdin=subprocess.PIPE, stdout=output) as service:
            theirs.close()
            ours.settimeout(SECONDS)
            assert service.stdin is not None
            written = []
            for part in parts:
                service.stdin.write(part)
                service.stdin.flush()
                written.append(ours.recv(LIMIT))
            service.stdin.close()
            self.assertEqual(ours.recv(LIMIT), b"")
        return written

    def test_lines_that_are_there_are_answered_together(self) -> None:
        """A write of a pipe that is no longer than 4,096 bytes is read at once."""
        text = b":- chr_constraint a/1.\n---\n"
        many = b"".join(b'["tell",1,[1,%d],[["a",%d]]]\n' % (number, number) for number in range(100))
        self.assertLess(len(many), 4_096)
        begun = b'["tell",1,[2,1],[["a",1]]]\n["show",1'
        self.assertEqual(
            self.writes([text, many, begun, b"7]\n"]),
            [b"accepted: rules 0, cases 0\n", 100 * b"told\n", b"told\n", b"refused 35\n"],
        )
