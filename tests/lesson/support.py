"""What the tests share: places, bench commands, a lesson's report, one test for each case of a table."""

import pathlib
import subprocess
import sys
import tempfile
import unittest

TOP = pathlib.Path(__file__).resolve().parent.parent.parent
FRONT_END = TOP / "tools/lesson"
COMMAND = FRONT_END / "lesson"
LESSONS = sorted((FRONT_END / "lessons").glob("*.lesson"))
BENCH = TOP / "tools/bench"
MODEL = TOP / "target/model/model"
STREAMS = TOP / "target/model/streams"
MODEL_SOURCES = TOP / "tests/model"

sys.dont_write_bytecode = True
sys.path.insert(0, str(FRONT_END))

from front_end import bench  # noqa: E402
from front_end.reading import read_lesson  # noqa: E402
from front_end.report import Report  # noqa: E402
from front_end.statements import STATEMENTS  # noqa: E402

# The bench commands that lessons are run on, each a list of words; `run` fills it before the tests are loaded.
BENCHES = []


def is_stale(made, sources):
    """Whether a file is missing, or older than a source or a file in a source folder."""
    if not made.exists():
        return True
    files = [file for source in sources for file in ([source] if source.is_file() else source.rglob("*"))]
    return any(file.stat().st_mtime > made.stat().st_mtime for file in files if file.is_file())


def lesson_path(stem):
    return str(FRONT_END / "lessons" / f"{stem}.lesson")


def lesson(*lines):
    """A lesson of these lines behind a title, so that the first has line number 2."""
    return read_lesson("test.lesson", "\n".join(["lesson: a test", *lines]))


def reported(read, command=None):
    """The report of a lesson that was run on a bench program, on the first one if none is given."""
    return Report(read, bench.run(command or BENCHES[0], read.calls()))


def told(read, answers):
    """The report of a lesson with made-up answers, as one text."""
    return "\n".join(Report(read, answers).lines)


def for_each(table):
    """Gives a test class one test for each case of the table, by the case's name; its `check` gets the case."""

    def filled(test_class):
        for name, case in table.items():
            setattr(test_class, f"test {name}", lambda self, case=case: self.check(case))
        return test_class

    return filled


class CommandCase(unittest.TestCase):
    """A test of a command, with a folder of its own."""

    def setUp(self):
        directory = tempfile.TemporaryDirectory()
        self.addCleanup(directory.cleanup)
        self.directory = pathlib.Path(directory.name)

    def file(self, name, text):
        path = self.directory / name
        path.write_text(text, encoding="utf-8")
        return str(path)

    def ends(self, status, *arguments, command=COMMAND, **more):
        """Standard output and standard error of the command, which must end with this status."""
        ran = subprocess.run([command, *arguments], capture_output=True, check=False, **more)
        self.assertEqual(ran.returncode, status, ran.stdout + ran.stderr)
        return ran.stdout, ran.stderr.decode()
