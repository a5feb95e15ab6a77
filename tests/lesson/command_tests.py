"""The command: what it prints and the status that it ends with."""

import subprocess

import support

MODEL = str(support.MODEL)

MET = "lesson: one\ntake at 0\nexpect empty\n"
NOT_MET = "lesson: two\ntake at 0\nexpect 60 bytes from queue 1\n"
BAD = "lesson: three\ntake at port 0\n"


class Command(support.CommandCase):
    def test_all_met(self):
        said, _ = self.ends(0, "run", self.file("met.lesson", MET), "--bench", MODEL)
        self.assertIn("   3  expect empty  [met]\n\n1 expectation met, 0 not met\n", said.decode())

    def test_a_wrong_expectation(self):
        said, _ = self.ends(1, "run", self.file("not.lesson", NOT_MET), "--bench", MODEL)
        rows = [line.split(None, 1) for line in said.decode().splitlines()]
        self.assertIn(["3", "expect 60 bytes from queue 1  [NOT MET]"], rows)
        self.assertIn(["expected", "port 0 sends 60 bytes from queue 1"], rows)
        self.assertIn(["found", "port 0 is empty"], rows)
        self.assertIn("0 expectations met, 1 not met\n", said.decode())

    def test_one_wrong_expectation_among_several_lessons(self):
        wrong, right = self.file("not.lesson", NOT_MET), self.file("met.lesson", MET)
        self.ends(1, "run", wrong, right, "--bench", MODEL)
        self.ends(1, "run", right, wrong, "--bench", MODEL)

    def test_one_of_several_times_is_wrong(self):
        text = "lesson: four\n3 times: frame at 0: from 02:00:00:00:00:01 to broadcast, 4083 bytes\nexpect queued at 1 2 3 4\n"
        self.ends(0, "run", self.file("three.lesson", text), "--bench", MODEL)
        said, _ = self.ends(1, "run", self.file("four.lesson", text.replace("3 times", "4 times")), "--bench", MODEL)
        self.assertIn("found               arrived at port 0, dropped: no room (reason 13)\n", said.decode())

    def test_a_bad_lesson(self):
        path = self.file("bad.lesson", BAD)
        expected = f"{path}:2: expected a port, a number 0 to 255, found 'port'\n"
        for arguments in (["run", path, "--bench", MODEL], ["records", path]):
            self.assertEqual(self.ends(2, *arguments), (b"", expected))

    def test_a_bad_lesson_stops_the_others(self):
        said, _ = self.ends(2, "run", self.file("met.lesson", MET), self.file("bad.lesson", BAD), "--bench", MODEL)
        self.assertEqual(said, b"")

    def test_files_that_are_no_lesson(self):
        missing, folder, empty = str(self.directory / "none.lesson"), str(self.directory), self.file("empty.lesson", "")
        messages = {
            missing: f"{missing}: there is no such file\n",
            folder: f"{folder}: expected a lesson file, found a folder\n",
            empty: f"{empty}: expected 'lesson: TITLE', found an empty file\n",
            "nothing": "nothing: there is no such file, and no lesson of that number or name: see 'lesson list'\n",
        }
        for given, message in messages.items():
            for arguments in (["run", given, "--bench", MODEL], ["records", given]):
                self.assertEqual(self.ends(2, *arguments), (b"", message))

    def test_records(self):
        said, _ = self.ends(0, "records", self.file("met.lesson", MET.replace("take", "2 times: take")))
        self.assertEqual(said, bytes.fromhex("0300 0200 00 0300 0200 00"))

    def test_bench_programs_that_do_not_fit(self):
        path = self.file("met.lesson", MET)
        failures = {
            "no-such-program": "bench program no-such-program: No such file or directory\n",
            "false": "bench program false: ended with status 1\n",
            f"echo {'1' * 3000}": f"bench program: expected a line '1 2 ..', found '{'1' * 58}..'\n",
            "echo 1 2 ok 60 0 00": "bench program: expected a line '1 2 ..', found '1 2 ok 60 0 00'\n",
            "echo 1 2 ok 1 0 0": "bench program: expected a line '1 2 ..', found '1 2 ok 1 0 0'\n",
            "true": "bench program: expected 1 lines, found 0\n",
            "echo 1 2 ok 0": "bench program: expected a line '1 2 ..', found '1 2 ok 0'\n",
            "echo 2 2 ok 0 0": "bench program: expected a line '1 2 ..', found '2 2 ok 0 0'\n",
            "echo 1 3 ok 0 0": "bench program: expected a line '1 2 ..', found '1 3 ok 0 0'\n",
            " ": "bench program: expected a command\n",
        }
        for command, message in failures.items():
            self.assertEqual(self.ends(2, "run", path, "--bench", command), (b"", message))

    def test_a_bench_program_of_several_words(self):
        self.ends(0, "run", self.file("met.lesson", MET), "--bench", "echo 1 2 ok 0 0")
        self.ends(1, "run", self.file("met.lesson", MET), "--bench", "echo 1 2 ok 60 0")

    def test_a_report_that_nobody_reads_on(self):
        """As in 'lesson run --all | head': no traceback."""
        running = subprocess.Popen(
            [support.COMMAND, "run", "--all", "--bench", MODEL], stdout=subprocess.PIPE, stderr=subprocess.PIPE
        )
        running.stdout.close()
        said = running.stderr.read()
        running.stderr.close()
        self.assertEqual((running.wait(), said), (2, b""))

    def test_long_lines_of_a_lesson_are_cut(self):
        text = f"lesson: long\nrecord kind 99: {'00 ' * 2000}\nexpect ok 0 0\n"
        said, _ = self.ends(1, "run", self.file("long.lesson", text), "--bench", MODEL)
        self.assertLess(max(len(line) for line in said.decode().splitlines()), 300)
