"""The command without --bench runs tools/bench: it builds what is stale, and a run that failed is told with its message."""

import os
import shutil

import support
from front_end.quoting import quoted

# Programs that stand in for others in a copy of the tree that has the tools alone.
RUNNER = '#!/bin/sh\nexec "$@"\n'
MODEL = f'#!/bin/sh\nexec "{support.MODEL}"\n'
CANNOT_WRITE = "#!/bin/sh\ncat >/dev/null\necho 1 2 ok 0 0\necho 'bench: cannot write' >&2\n"
SAYS_TOO_MUCH = f"#!/bin/sh\ncat >/dev/null\necho 'bench: {'x' * 5000}' >&2\n"

# The kit's command, as far as it is needed here: in the crate's folder 'rt run' builds.
KIT = "#!/bin/sh\n[ \"$*\" = run ] && [ \"${PWD##*/}\" = bench ] || exit 3\nmkdir -p out\ncp ../../bench-to-be out/bench\n"
KIT_THAT_FAILS = "#!/bin/sh\necho 'crates/bench: not proved' >&2\nexit 1\n"

LESSON = "lesson: one\ntake at 0\nexpect empty\n"
BUILDING = "proving and building the bench program, some minutes the first time ..\n"


class DefaultBench(support.CommandCase):
    def setUp(self):
        super().setUp()
        shutil.copytree(support.TOP / "tools", self.directory / "tools")
        (self.directory / "crates/bench/src").mkdir(parents=True)
        self.file("crates/bench/src/main.rt", "")
        self.file("crates.txt", "bench:\n")
        self.program("tools/run-x86-64", RUNNER)
        self.lesson = self.file("one.lesson", LESSON)

    def program(self, name, text):
        path = self.directory / name
        path.parent.mkdir(parents=True, exist_ok=True)
        path.write_text(text, encoding="utf-8")
        path.chmod(0o755)

    def run_lesson(self, status):
        path = f"{self.directory}/kit:{os.environ['PATH']}"
        command = self.directory / "tools/lesson/lesson"
        return self.ends(status, "run", self.lesson, command=command, env={**os.environ, "PATH": path})

    def fails(self, message):
        self.assertEqual(self.run_lesson(2), (b"", f"{message}\n"))

    def name(self):
        """The command's name as a message quotes it."""
        return quoted(str(self.directory / "tools/bench"))

    def test_a_built_program_is_run(self):
        self.program("target/bin/bench", MODEL)
        said, errors = self.run_lesson(0)
        self.assertIn(b"1 expectation met, 0 not met\n", said)
        self.assertEqual(errors, "")

    def test_what_is_stale_is_built(self):
        self.program("target/bin/bench", CANNOT_WRITE)
        self.program("bench-to-be", MODEL)
        self.program("kit/rt", KIT)
        os.utime(self.directory / "target/bin/bench", (0, 0))
        said, errors = self.run_lesson(0)
        self.assertIn(b"1 expectation met, 0 not met\n", said)
        self.assertEqual(errors, BUILDING)

    def test_what_cannot_be_built(self):
        self.program("kit/rt", KIT_THAT_FAILS)
        self.fails(f"{BUILDING}bench program {self.name()}: ended with status 1: crates/bench: not proved")

    def test_a_failure_to_write_is_told(self):
        self.program("target/bin/bench", CANNOT_WRITE)
        self.fails(f"bench program {self.name()}: ended with status 1: bench: cannot write")

    def test_a_long_message_is_cut(self):
        self.program("target/bin/bench", SAYS_TOO_MUCH)
        self.fails(f"bench program {self.name()}: ended with status 1: bench: {'x' * 51}..")
