"""A lesson file, read: words for the student, steps with their calls, and what is expected of them."""

from dataclasses import dataclass, field

from .expectations import read_expectation
from .frames import BPDU_DESTINATION, BROADCAST
from .phrase import LessonError, Phrase
from .source import read_text
from .statements import read_statement

MOST_TIMES = 1_000


@dataclass
class Words:
    """What the student reads."""

    text: str


@dataclass
class Naming:
    """A line that names an address; it makes no call."""

    line: int
    text: str


@dataclass
class Step:
    """A line that makes a call, once or several times."""

    line: int
    text: str
    call: object
    times: int


@dataclass
class Expectation:
    """A line that says what each call of a step should answer; `tags` with what tags a frame should leave, or None."""

    line: int
    text: str
    step: Step
    answer: object
    tags: object


@dataclass
class Lesson:
    path: str
    title: str = ""
    items: list = field(default_factory=list)
    addresses: dict = field(default_factory=lambda: {"broadcast": BROADCAST, "bpdu": BPDU_DESTINATION})

    def steps(self):
        return [item for item in self.items if isinstance(item, Step)]

    def calls(self):
        """All calls in order, each as often as its step makes it."""
        return [step.call for step in self.steps() for _ in range(step.times)]


def read_file(path):
    return read_lesson(path, read_text(path))


def read_lesson(path, text):
    lesson = Lesson(path)
    step = None
    for number, line in enumerate(text.split("\n"), 1):
        line = line.strip()
        phrase = Phrase(line, f"{path}:{number}", lesson.addresses)
        if not line or line.startswith("#"):
            continue
        if not lesson.title:
            lesson.title = read_title(phrase)
        elif line.startswith(">"):
            lesson.items.append(Words(line[1:].strip()))
        elif phrase.has("address"):
            read_naming(phrase)
            lesson.items.append(Naming(number, line))
        elif phrase.has("expect"):
            if step is None:
                raise LessonError(f"{phrase.place}: expected a statement before the first 'expect'")
            lesson.items.append(Expectation(number, line, step, *read_expectation(phrase, step.call)))
        else:
            times = read_times(phrase)
            step = Step(number, line, read_statement(phrase), times)
            lesson.items.append(step)
    if not lesson.title:
        found = "the end of the file" if text else "an empty file"
        raise LessonError(f"{path}: expected 'lesson: TITLE', found {found}")
    return lesson


def read_title(phrase):
    """'lesson: TITLE', the first line."""
    phrase.needs("lesson", ":")
    if not phrase.word():
        phrase.fails("a title")
    return phrase.rest()


def read_naming(phrase):
    """'address press is 02:00:00:00:00:01'"""
    name = phrase.word()
    if not name.isidentifier():
        phrase.fails("a name of letters, digits and _ that begins with a letter")
    if name in phrase.addresses:
        phrase.fails("a name that is not taken")
    phrase.needs(name, "is")
    phrase.addresses[name] = phrase.spelled_address("an address such as 02:00:00:00:00:01")
    phrase.needs_end()


def read_times(phrase):
    """'10 times: ' before a statement."""
    if not phrase.has_number():
        return 1
    times = phrase.number("how many times", 1, MOST_TIMES)
    phrase.needs("times", ":")
    return times
