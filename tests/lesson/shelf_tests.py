"""The lessons on the shelf by number, by name, or all; a first lesson to start from."""

import pathlib

import support

MODEL = str(support.MODEL)


class Shelf(support.CommandCase):
    def test_list(self):
        rows = self.ends(0, "list")[0].decode().splitlines()
        self.assertEqual(len(rows), len(support.LESSONS))
        for row, path in zip(rows, support.LESSONS):
            title = path.read_text(encoding="utf-8").split("\n")[0].removeprefix("lesson: ")
            number, name = path.stem.split("-", 1)
            self.assertEqual(row.split(None, 2), [number, name, title])

    def test_one_by_number_or_name(self):
        title = "The second tag"
        for given in ("3", "second-tag", "3-second-tag", support.lesson_path("3-second-tag")):
            said = self.ends(0, "run", given, "--bench", MODEL, cwd=self.directory)[0].decode()
            self.assertEqual(said.splitlines()[0], f"{support.lesson_path('3-second-tag')}: {title}")
            self.assertTrue(said.endswith(" expectations met, 0 not met\n\n"))

    def test_the_path_is_told_from_here(self):
        said = self.ends(0, "run", "3", "--bench", MODEL, cwd=support.TOP)[0].decode()
        self.assertTrue(said.startswith("tools/lesson/lessons/3-second-tag.lesson: "))

    def test_records_by_number(self):
        self.assertEqual(self.ends(0, "records", "3")[0], self.ends(0, "records", support.lesson_path("3-second-tag"))[0])

    def test_all(self):
        said = self.ends(0, "run", "--all", "--bench", MODEL)[0].decode()
        self.assertEqual(said.count(" expectations met, 0 not met\n"), len(support.LESSONS))
        self.assertEqual(said.splitlines()[-1], f"{len(support.LESSONS)} lessons: {len(support.LESSONS)} as expected, 0 not")

    def test_several_of_which_one_is_wrong(self):
        wrong = self.file("wrong.lesson", "lesson: two\ntake at 0\nexpect 60 bytes from queue 1\n")
        said = self.ends(1, "run", "2", wrong, "--bench", MODEL)[0].decode()
        self.assertEqual(said.splitlines()[-2:], ["2 lessons: 1 as expected, 1 not", f"  not as expected: {wrong}"])

    def test_neither_lessons_nor_all(self):
        expected = "lesson run: expected either lessons or --all; 'lesson list' has the lessons\n"
        self.assertEqual(self.ends(2, "run"), (b"", expected))
        self.assertEqual(self.ends(2, "run", "--all", "3"), (b"", expected))


class First(support.CommandCase):
    def test_it_runs_at_once(self):
        path = str(self.directory / "mine.lesson")
        said = self.ends(0, "new", path)[0].decode()
        self.assertEqual(said, f"{path}: written. Run it with: tools/lesson/lesson run {path}\n")
        for bench in support.BENCHES:
            self.assertIn(b", 0 not met\n", self.ends(0, "run", path, "--bench", " ".join(bench))[0])
        text = pathlib.Path(path).read_text(encoding="utf-8")
        self.assertGreater(sum(line.startswith("#") for line in text.splitlines()), 5)
        self.assertGreater(sum(line.startswith("expect") for line in text.splitlines()), 3)

    def test_it_overwrites_nothing(self):
        path = self.file("mine.lesson", "kept")
        self.assertEqual(self.ends(2, "new", path), (b"", f"{path}: is there already, and is not overwritten\n"))
        self.assertEqual(pathlib.Path(path).read_text(encoding="utf-8"), "kept")

    def test_a_folder_that_is_not_there(self):
        path = str(self.directory / "none" / "mine.lesson")
        self.assertEqual(self.ends(2, "new", path), (b"", f"{path}: No such file or directory\n"))
