"""Lesson files: what is a text, what is none, and where the error says that it is none."""

import pathlib

import support
from front_end.phrase import LessonError
from front_end.reading import read_file
from front_end.source import text_of

GOOD = "lesson: one\ntake at 0\nexpect empty\n"

# Bytes of a file that is read as GOOD.
ACCEPTED = {
    "plain": GOOD.encode(),
    "byte order mark": b"\xef\xbb\xbf" + GOOD.encode(),
    "Windows line ends": GOOD.replace("\n", "\r\n").encode(),
    "Windows line ends behind a byte order mark": b"\xef\xbb\xbf" + GOOD.replace("\n", "\r\n").encode(),
    "line ends of both sorts": b"lesson: one\r\ntake at 0\nexpect empty\r\n",
}

# Bytes of a file, and the error behind its path.
REFUSED = {
    "old Mac line ends": (
        GOOD.replace("\n", "\r").encode(),
        ":1: expected line ends of Unix or Windows, found a carriage return alone (line ends of an old Mac?)",
    ),
    "old Mac line end in a later line": (
        b"lesson: one\r\ntake at 0\rage\r\n",
        ":2: expected line ends of Unix or Windows, found a carriage return alone (line ends of an old Mac?)",
    ),
    "bell": (b"lesson: one\ntake at 0\x07\n", ":2: expected text, found the control character U+0007"),
    "zero byte": (b"lesson: one\n\ntake at\0 0\n", ":3: expected text, found the control character U+0000"),
    "form feed": (b"lesson: one\n\x0ctake at 0\n", ":2: expected text, found the control character U+000C"),
    "control character in words for the student": (
        b"lesson: one\n> wait\x1b[0m\n",
        ":2: expected text, found the control character U+001B",
    ),
    "control character of two bytes": (b"lesson: one\n# \xc2\x85\n", ":2: expected text, found the control character U+0085"),
    "line separator": ("lesson: one\u2028age\n".encode(), ":1: expected text, found the control character U+2028"),
    "byte order mark inside": (b"lesson: one\n\xef\xbb\xbfage\n", ":2: expected text, found the control character U+FEFF"),
    "no UTF-8": (b"lesson: one\n# caf\xe9\n", ":2: expected text in UTF-8, found byte E9"),
    "no UTF-8 in the first line": (b"\xff", ":1: expected text in UTF-8, found byte FF"),
    "UTF-16": (GOOD.encode("utf-16"), ":1: expected text in UTF-8, found byte FF"),
    "cut in a letter": (b"lesson: one\n# caf\xc3", ":2: expected text in UTF-8, found byte C3"),
    "empty": (b"", ": expected 'lesson: TITLE', found an empty file"),
    "byte order mark alone": (b"\xef\xbb\xbf", ": expected 'lesson: TITLE', found an empty file"),
    "wrong word behind Windows line ends": (
        b"\xef\xbb\xbflesson: one\r\n\r\ntaek at 0\r\n",
        ":3: expected '>', '#', address, expect, or a statement: port, vlan, clear, static, remove, map, queue, bpdu,"
        " frame, take, drain, age, counter, record, found 'taek'",
    ),
}


class InFile(support.CommandCase):
    def setUp(self):
        super().setUp()
        self.path = str(self.directory / "a.lesson")

    def error(self):
        with self.assertRaises(LessonError) as raised:
            read_file(self.path)
        return str(raised.exception)


@support.for_each(ACCEPTED)
class Accepted(InFile):
    def check(self, case):
        pathlib.Path(self.path).write_bytes(case)
        read, good = read_file(self.path), support.read_lesson(self.path, GOOD)
        self.assertEqual((read.title, read.items), (good.title, good.items))


@support.for_each(REFUSED)
class NoText(InFile):
    def check(self, case):
        written, expected = case
        pathlib.Path(self.path).write_bytes(written)
        self.assertEqual(self.error(), self.path + expected)


class NoFile(InFile):
    def test_missing(self):
        self.assertEqual(self.error(), f"{self.path}: there is no such file")

    def test_folder(self):
        pathlib.Path(self.path).mkdir()
        self.assertEqual(self.error(), f"{self.path}: expected a lesson file, found a folder")

    def test_tabs_are_spaces(self):
        self.assertEqual(text_of("a.lesson", b"take\tat 0"), "take\tat 0")
        self.assertEqual(len(support.lesson("take\tat\t0").calls()), 1)
