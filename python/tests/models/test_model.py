"""The plain slow model of whole runs by itself: it has the rows that the program has."""

import unittest
from collections.abc import Sequence

import run_rows as rows
import test_runs
from slow_lines import output_of

MOST_TYPES = 600


class Model(test_runs.Runs):
    def written(self, words: Sequence[str], given: bytes) -> tuple[int, str]:
        replicas = int(words[words.index("--replicas") + 1]) if "--replicas" in words else 1
        lines = output_of(given, replicas, MOST_TYPES, "--wide" in words)
        told = lines[:1] if words[0] == "check" else lines
        return 0 if lines[0].startswith("accepted") else 1, "".join(f"{line}\n" for line in told)


class ModelTexts(Model):
    def test_texts(self) -> None:
        self.expect_all(rows.ODD_BYTES)
        for table in (rows.ACCEPTED_TEXTS, rows.FAULTS, rows.FAULTS_BESIDE_OTHERS, rows.REFUSED_WEIGHTS):
            self.expect_all(table)
        self.expect_all(rows.NOT_LOWERED)
        self.expect_all((" " * spaces + rest, output) for spaces, rest, output in rows.LONG_TEXTS)

    def test_stores(self) -> None:
        for table in (rows.RESTED, rows.LOWERED_BY_PAIRS, rows.OPERATIONS):
            self.expect_answers(table)


class ModelLines(Model, test_runs.Lines):
    pass


class ModelReplicas(Model, test_runs.Replicas):
    pass


class ModelHostile(Model, test_runs.Hostile):
    pass


if __name__ == "__main__":
    unittest.main()
