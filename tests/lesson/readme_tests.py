"""The front end's README: its commands run, its lessons are those on the shelf, its examples are lines of the language."""

import re
import subprocess
import unittest

import support

FRAME = "frame at 0: from press to broadcast"
NAMING = "address press is 02:00:00:00:00:01"

# The statements behind which the README's expectations stand, by the first cell of their row.
BEHIND = {
    "a frame": [FRAME, FRAME],
    "a take": ["take at 1"] * 4,
    "`age`, `drain`, `counter`": ["age", "drain at 1", "counter sent at 1"],
    "a setting": ["clear vlan 10"],
    "`record`": ["record kind 99: 00"],
    "any": ["take at 5"],
}


TEXT = (support.FRONT_END / "README.md").read_text(encoding="utf-8")

# The commands as the README has them, without what is said of them.
COMMANDS = [line.split(" # ")[0].strip() for line in TEXT.splitlines() if line.startswith("    ")]

# All tests: this is one of them.
ALL_TESTS = "tests/lesson/run"

# What a command of the README may name, from the top of the tree.
NAMED = ("tools", "tests", "target", "crates", "crates.txt", "docs")


def rows(heading):
    """The rows of the README's table with this first heading, each a list of cells."""
    table = TEXT.split(f"| {heading} |", 1)[1].split("\n\n", 1)[0]
    return [[cell.strip() for cell in row.strip("|").split("|")] for row in table.splitlines()[2:]]


def examples(cell):
    return re.findall(r"`([^`]+)`", cell)


class Commands(support.CommandCase):
    def test_every_command_runs(self):
        """In their order, in a folder where the tree's own names lead to the tree and new files are thrown away."""
        for name in NAMED:
            (self.directory / name).symlink_to(support.TOP / name)
        for command in COMMANDS:
            if command != ALL_TESTS:
                ran = subprocess.run(["bash", "-c", command], cwd=self.directory, capture_output=True, check=False)
                self.assertEqual(ran.returncode, 0, f"{command}: {(ran.stdout + ran.stderr).decode()}")
                self.assertTrue(ran.stdout or ">" in command, command)
        self.assertGreater((self.directory / "three.records").stat().st_size, 0)

    def test_every_command_is_there(self):
        """The commands of both programs, as their own usage tells them."""
        self.assertIn(ALL_TESTS, COMMANDS)
        for word in ("list", "run", "new", "records"):
            self.assertTrue(any(command.startswith(f"tools/lesson/lesson {word}") for command in COMMANDS), word)
            self.assertIn(word, self.ends(0, "--help")[0].decode())
        for option in ("--all", "--bench"):
            self.assertTrue(any(option in command for command in COMMANDS), option)


class Readme(unittest.TestCase):
    def test_lessons(self):
        self.assertEqual([row[0] for row in rows("lesson")], [f"`{path.stem}`" for path in support.LESSONS])

    def test_statements(self):
        statements = [example for row in rows("statement") for example in examples(row[0])]
        self.assertEqual(statements[0], NAMING)
        self.assertEqual(len(support.lesson(*statements).steps()), len(statements) - 1)

    def test_every_statement_has_an_example(self):
        first_words = {example.split()[0].strip(":") for row in rows("statement") for example in examples(" ".join(row))}
        self.assertLessEqual(support.STATEMENTS.keys(), first_words)

    def test_expectations(self):
        seen = rows("behind")
        self.assertEqual([row[0] for row in seen], list(BEHIND))
        for label, cell in seen:
            expected = [example for example in examples(cell) if example != "front_end/words.py"]
            self.assertEqual(len(expected), len(BEHIND[label]))
            for statement, expectation in zip(BEHIND[label], expected):
                support.lesson(NAMING, statement, f"expect {expectation}")
