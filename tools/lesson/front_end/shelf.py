"""The shelf: the lessons that come with the front end, by number, by name, or all."""

import os
import pathlib
import re

from .phrase import LessonError
from .reading import read_file

PLACE = pathlib.Path(__file__).resolve().parent.parent / "lessons"

# What 'lesson new' writes.
FIRST = PLACE.parent / "first.lesson"

FILE = re.compile(r"(?P<number>[0-9]+)-(?P<name>.+)\.lesson")


def lessons():
    """Number, name and path of each lesson, in the order of their numbers."""
    found = [(FILE.fullmatch(path.name), path) for path in PLACE.glob("*.lesson")]
    return sorted((int(match["number"]), match["name"], from_here(path)) for match, path in found if match)


def from_here(path):
    """The path as the reader would write it: from the present folder, if the file is below that."""
    near = os.path.relpath(path)
    return str(path) if near.startswith(os.pardir) else near


def path_of(given):
    """The file of a lesson that is given by its number, its name or its path."""
    for number, name, path in lessons():
        if given in (str(number), name, f"{number}-{name}"):
            return path
    if re.fullmatch(r"[\w-]+", given) and not os.path.exists(given):
        raise LessonError(f"{given}: there is no such file, and no lesson of that number or name: see 'lesson list'")
    return given


def all_paths():
    return [path for _, _, path in lessons()]


def rows():
    """A row for each lesson: number, name, title."""
    read = [(number, name, read_file(path).title) for number, name, path in lessons()]
    width = max((len(name) for _, name, _ in read), default=0)
    return [f"{number:2}  {name:{width}}  {title}" for number, name, title in read]


def write_first(path):
    """A first lesson to start from, in a file that was not there."""
    try:
        with open(path, "x", encoding="utf-8", newline="\n") as file:
            file.write(FIRST.read_text(encoding="utf-8"))
    except FileExistsError as error:
        raise LessonError(f"{path}: is there already, and is not overwritten") from error
    except OSError as error:
        raise LessonError(f"{path}: {error.strerror}") from error
