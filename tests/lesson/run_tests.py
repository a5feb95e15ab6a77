"""tests/lesson/run itself: some tests by name, the tests of one lesson, and the list of what failed."""

import os

import support

RUN = support.TOP / "tests/lesson/run"


class Run(support.CommandCase):
    def ran(self, status, *arguments):
        return self.ends(status, "--bench", str(support.MODEL), *arguments, command=RUN)[0].decode().splitlines()

    def test_by_name(self):
        self.assertEqual(self.ran(0, "Buckets")[-1], "2 passed, 0 failed")
        self.assertEqual(self.ran(0, "*Buckets*address_0*")[-1], "1 passed, 0 failed")

    def test_one_lesson(self):
        said = self.ran(0, "--lesson", "3")
        self.assertEqual(said[-1], self.ran(0, "3-second-tag")[-1])
        self.assertRegex(said[-1], "^[1-9] passed, 0 failed$")

    def test_no_such_name(self):
        self.assertEqual(self.ran(1, "no such test")[-2:], ["FAILED: no test has a name with no such test", "0 passed, 1 failed"])

    def test_no_such_lesson(self):
        self.assertEqual(self.ran(1, "--lesson", "77")[-1], "0 passed, 1 failed")

    def test_failures_are_listed_by_name(self):
        said = self.ends(1, "--bench", "echo 1 2 ok 0 0", "Example", "Buckets", command=RUN)[0].decode().splitlines()
        self.assertEqual(said[-2:], ["FAILED: record_tests.Example.test echo 1 2 ok 0 0", "2 passed, 1 failed"])


class Stale(support.CommandCase):
    def test_stale(self):
        """Missing, newer, older than a source, older than a file in a source folder."""
        made, folder = self.directory / "made", self.directory / "folder"
        (folder / "below").mkdir(parents=True)
        source, inside = (self.directory / "source", folder / "below/file")
        for path, time in ((source, 10), (inside, 20)):
            path.write_text("")
            os.utime(path, (time, time))
        self.assertTrue(support.is_stale(made, [source]))
        made.write_text("")
        for time, expected in ((5, (True, True)), (15, (False, True)), (25, (False, False))):
            os.utime(made, (time, time))
            self.assertEqual((support.is_stale(made, [source]), support.is_stale(made, [folder])), expected)
