"""The text of a lesson file: UTF-8, with or without a byte order mark, with the line ends of Unix or of Windows."""

import codecs
import os
import unicodedata

from .phrase import LessonError

# Control characters, and characters that end a line for some readers and not for others.
NO_TEXT = ("Cc", "Zl", "Zp")
BYTE_ORDER_MARK = "\ufeff"


def read_text(path):
    if os.path.isdir(path):
        raise LessonError(f"{path}: expected a lesson file, found a folder")
    try:
        with open(path, "rb") as file:
            return text_of(path, file.read())
    except FileNotFoundError as error:
        raise LessonError(f"{path}: there is no such file") from error
    except (OSError, ValueError) as error:
        raise LessonError(f"{path}: {getattr(error, 'strerror', None) or error}") from error


def text_of(path, read):
    """The text of a file's bytes, with the line ends of Unix."""
    read = read.removeprefix(codecs.BOM_UTF8)
    try:
        text = read.decode("utf-8")
    except UnicodeDecodeError as error:
        line = read[: error.start].count(b"\n") + 1
        raise LessonError(f"{path}:{line}: expected text in UTF-8, found byte {read[error.start]:02X}") from error
    text = text.replace("\r\n", "\n")
    for number, line in enumerate(text.split("\n"), 1):
        for character in line:
            if is_no_text(character):
                raise LessonError(f"{path}:{number}: expected {expected(character)}")
    return text


def is_no_text(character):
    return character == BYTE_ORDER_MARK or (character != "\t" and unicodedata.category(character) in NO_TEXT)


def expected(character):
    if character == "\r":
        return "line ends of Unix or Windows, found a carriage return alone (line ends of an old Mac?)"
    return f"text, found the control character U+{ord(character):04X}"
