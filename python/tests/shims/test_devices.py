"""Devices that fail, inputs that come byte by byte, and inputs that are typed at a terminal."""

import os
import resource
import subprocess
import tempfile
import termios
import unittest
from collections.abc import Callable, Iterator
from functools import partial
from pathlib import Path

import run_rows as rows
from chrrep.node import program_path
from shims import DEVICES, End, made_shim, run_failing, why_not

SECONDS = 60.0
TYPED_SECONDS = 10.0
"""So long a command may take to end after an end of input was typed. It takes some milliseconds."""

END_OF_INPUT = b"\x04"
"""Control and D. At the beginning of a line it ends the input, once: who reads on waits for more to be typed."""

FAULT = 3
WORDS = (("run", "--replicas", "2"), ("serve", "--replicas", "2"), ("check",), ("explain",))
ANSWERS = "".join(f"{answer}\n" for _, answer in rows.MINIMA_OF_TWO)
INPUT = "".join(f"{line}\n" for line in (rows.MINIMUM_TEXT, "---", *(line for line, _ in rows.MINIMA_OF_TWO))).encode()
VERDICT = b"accepted: rules 1, cases 17\n"
OUTPUT = VERDICT + ANSWERS.encode()


def whole(words: tuple[str, ...]) -> bytes:
    """What a command writes to a device that takes all. Explanations are taken as they come."""
    if words[0] == "explain":
        end = subprocess.run([program_path(), *words], input=INPUT, stdout=subprocess.PIPE, timeout=SECONDS, check=True)
        return end.stdout
    return VERDICT if words[0] == "check" else OUTPUT


Before = Callable[[], None] | None


def ended(words: tuple[str, ...], input: int, output: int, before: Before = None) -> tuple[int, bytes]:
    """The status, and what came on standard error. Signals of devices are ignored, as they are by this Python."""
    end = subprocess.run(
        [program_path(), *words],
        stdin=input,
        stdout=output,
        stderr=subprocess.PIPE,
        timeout=SECONDS,
        preexec_fn=before,
        restore_signals=False,
        check=False,
    )
    return end.returncode, end.stderr


class Devices(unittest.TestCase):
    def given(self) -> int:
        """A file that has the input."""
        file = tempfile.TemporaryFile()
        self.addCleanup(file.close)
        file.write(INPUT)
        file.seek(0)
        return file.fileno()

    def test_writers_that_fail_after_so_many_bytes(self) -> None:
        """A file may grow to any beginning of the output: just that is written."""
        for words in WORDS:
            output = whole(words)
            for most in range(len(output) + 1):
                with self.subTest(words=words, most=most), tempfile.TemporaryFile() as file:
                    limit = partial(resource.setrlimit, resource.RLIMIT_FSIZE, (most, most))
                    end = ended(words, self.given(), file.fileno(), limit)
                    file.seek(0)
                    self.assertEqual(end, (FAULT if most < len(output) else 0, b""))
                    self.assertEqual(file.read(), output[:most])

    def bad_outputs(self) -> Iterator[int]:
        full = os.open("/dev/full", os.O_WRONLY)
        self.addCleanup(os.close, full)
        yield full
        read, write = os.pipe()
        os.close(read)
        self.addCleanup(os.close, write)
        yield write
        only_read = os.open("/dev/null", os.O_RDONLY)
        self.addCleanup(os.close, only_read)
        yield only_read

    def test_writers_that_take_nothing(self) -> None:
        """A full disk, a pipe that nobody reads, a file that is not open for writing, none at all."""
        for words in WORDS:
            for output in self.bad_outputs():
                with self.subTest(words=words, output=output):
                    self.assertEqual(ended(words, self.given(), output), (FAULT, b""))
            with self.subTest(words=words):
                closed = ended(words, self.given(), subprocess.DEVNULL, lambda: os.close(1))
                self.assertEqual(closed, (FAULT, b""))

    def test_readers_that_fail(self) -> None:
        """A folder, a file that is not open for reading, none at all: nothing is written."""
        folder, only_write = os.open("/", os.O_RDONLY), os.open("/dev/null", os.O_WRONLY)
        self.addCleanup(os.close, folder)
        self.addCleanup(os.close, only_write)
        for words in WORDS:
            for input, before in ((folder, None), (only_write, None), (subprocess.DEVNULL, lambda: os.close(0))):
                with self.subTest(words=words, input=input), tempfile.TemporaryFile() as file:
                    self.assertEqual(ended(words, input, file.fileno(), before), (FAULT, b""))
                    self.assertEqual(os.fstat(file.fileno()).st_size, 0)

    def test_a_service_whose_reader_goes(self) -> None:
        """It ends at the first answer that nobody takes."""
        words = [program_path(), *WORDS[1]]
        with subprocess.Popen(words, stdin=subprocess.PIPE, stdout=subprocess.PIPE, restore_signals=False) as process:
            assert process.stdin and process.stdout
            text, _, lines = INPUT.partition(b"---\n")
            process.stdin.write(text + b"---\n")
            process.stdin.flush()
            self.assertEqual(process.stdout.readline(), VERDICT)
            process.stdout.close()
            process.stdin.write(lines)
            process.stdin.flush()
            self.assertEqual(process.wait(SECONDS), FAULT)

    def test_a_service_of_a_refused_program(self) -> None:
        """It ends before its input does: with a clause that is refused, and with a text that is too long."""
        for given, output in ((b"x\n---\n", b"refused 11: clause 1\n"), (b"%" * 80_000, b"refused 2\n")):
            words = [program_path(), *WORDS[1]]
            with subprocess.Popen(words, stdin=subprocess.PIPE, stdout=subprocess.PIPE, bufsize=0) as process:
                assert process.stdin and process.stdout
                process.stdin.write(given)
                self.assertEqual(process.wait(SECONDS), 1)
                self.assertEqual(process.stdout.read(), output)

    def test_inputs_byte_by_byte(self) -> None:
        for words in WORDS:
            with self.subTest(words=words):
                command = [program_path(), *words]
                with subprocess.Popen(command, stdin=subprocess.PIPE, stdout=subprocess.PIPE, bufsize=0) as process:
                    assert process.stdin and process.stdout
                    for byte in INPUT:
                        process.stdin.write(bytes((byte,)))
                    process.stdin.close()
                    self.assertEqual(process.stdout.read(), whole(words))
                self.assertEqual(process.returncode, 0)

    def test_a_service_byte_by_byte(self) -> None:
        """Each answer comes before the next line is begun."""
        words = [program_path(), *WORDS[1]]
        with subprocess.Popen(words, stdin=subprocess.PIPE, stdout=subprocess.PIPE, bufsize=0) as process:
            assert process.stdin and process.stdout
            text, _, lines = INPUT.partition(b"---\n")
            process.stdin.write(text + b"---\n")
            answers = [process.stdout.readline()]
            for line in lines.splitlines(keepends=True):
                for byte in line:
                    process.stdin.write(bytes((byte,)))
                answers.append(process.stdout.readline())
            process.stdin.close()
            self.assertEqual(answers, OUTPUT.splitlines(keepends=True))
            self.assertEqual(process.wait(SECONDS), 0)


def typed(words: tuple[str, ...], keys: bytes) -> tuple[int, bytes] | None:
    """The status and the output of a command at a terminal on which these keys are typed; None where it waits for
    more. What is typed is not echoed."""
    terminal, input = os.openpty()
    try:
        modes = termios.tcgetattr(input)
        modes[3] &= ~termios.ECHO
        termios.tcsetattr(input, termios.TCSANOW, modes)
        with subprocess.Popen([program_path(), *words], stdin=input, stdout=subprocess.PIPE) as process:
            os.write(terminal, keys)
            try:
                output, _ = process.communicate(timeout=TYPED_SECONDS)
            except subprocess.TimeoutExpired:
                process.kill()
                return None
            return process.returncode, output
    finally:
        os.close(input)
        os.close(terminal)


class Terminals(unittest.TestCase):
    """Inputs are shorter than the 4,096 bytes that a terminal holds."""

    commands = (*WORDS, ("run", "--replicas", "2", "--workers", "4"))

    def test_one_end_of_input_ends_a_command(self) -> None:
        """A program with command lines, a program alone, one that is refused, and nothing."""
        text = INPUT.partition(b"---\n")[0]
        for words in self.commands:
            with self.subTest(words=words):
                self.assertEqual(typed(words, INPUT + END_OF_INPUT), (0, whole(words)))
            for given in (text, INPUT.replace(b"<=>", b"==>"), b""):
                with self.subTest(words=words, given=given):
                    command = [program_path(), *words]
                    piped = subprocess.run(command, input=given, capture_output=True, timeout=SECONDS, check=False)
                    self.assertEqual(piped.returncode, 1 if b"==>" in given else 0)
                    self.assertEqual(typed(words, given + END_OF_INPUT), (piped.returncode, piped.stdout))

    def test_a_last_line_without_end(self) -> None:
        """Where a line was begun the first key sends it, and the second one ends the input."""
        for words in self.commands:
            with self.subTest(words=words):
                self.assertEqual(typed(words, INPUT.rstrip(b"\n") + END_OF_INPUT + END_OF_INPUT), (0, whole(words)))


def answers_to(given: bytes) -> bytes:
    """What a service has written when it was given this beginning of the input: the verdict where the text has ended,
    and the answers to whole lines."""
    text, ended, lines = given.partition(b"---\n")
    count = 1 + lines.count(b"\n") if ended else 0
    return b"".join(OUTPUT.splitlines(keepends=True)[:count])


class FailingCalls(unittest.TestCase):
    """One read or write fails, the others do not: what comes after it is neither asked for nor written."""

    shim: Path

    @classmethod
    def setUpClass(cls) -> None:
        if why := why_not():
            raise unittest.SkipTest(why)
        room = tempfile.TemporaryDirectory()
        cls.addClassCleanup(room.cleanup)
        cls.shim = made_shim(DEVICES, Path(room.name))

    def end(self, words: tuple[str, ...], **environment: int) -> End:
        texts = {name: str(value) for name, value in environment.items()}
        return run_failing(self.shim, [program_path(), *words], INPUT, texts)

    def test_a_byte_a_call(self) -> None:
        for words in WORDS:
            with self.subTest(words=words):
                self.assertEqual(self.end(words, ONE_BYTE=1), End(0, whole(words), b"", False))

    def test_each_write_of_a_byte(self) -> None:
        for words in WORDS:
            output = whole(words)
            for number in range(1, len(output) + 1):
                with self.subTest(words=words, number=number):
                    end = self.end(words, ONE_BYTE=1, FAILING_WRITE=number)
                    self.assertEqual(end, End(FAULT, output[: number - 1], b"", True))

    def test_each_write(self) -> None:
        """All that is answered to lines that came together is written at once, by a service too, its verdict with it.
        What is before a failing write is written."""
        for words in WORDS:
            with self.subTest(words=words):
                self.assertEqual(self.end(words, FAILING_WRITE=1), End(FAULT, b"", b"", True))
                self.assertEqual(self.end(words, FAILING_WRITE=2), End(0, whole(words), b"", False))

    def test_each_read_of_a_byte(self) -> None:
        """The last one meets the end of the input. A service has answered the lines before it, the others nothing."""
        for words in WORDS:
            for number in range(1, len(INPUT) + 2):
                with self.subTest(words=words, number=number):
                    end = self.end(words, ONE_BYTE=1, FAILING_READ=number)
                    written = answers_to(INPUT[: number - 1]) if words[0] == "serve" else b""
                    self.assertEqual(end, End(FAULT, written, b"", True))


if __name__ == "__main__":
    unittest.main()
