"""The report of a lesson: its lines, the bench program's lines in words beneath them, expectations met or not, and
answers that are not as worked out."""

from itertools import groupby

from .account import Account, Departure
from .answers import Done
from .explaining import Explaining
from .frames import tags_of
from .quoting import quoted
from .reading import Expectation, Step, Words
from .telling import answer_words, tags_words
from .words import counted

# The width of the bench program's lines, so that the words stand in a column beside them.
LINE_WIDTH = 18

# A lesson's line is told up to here.
LESSON_WIDTH = 200


class Report:
    def __init__(self, lesson, answers):
        """`answers` has the bench program's answer for each call of the lesson."""
        self.met, self.not_met, self.not_as_worked_out = 0, 0, 0
        self.answers, self.told = answers, 0
        self.of_line = {}
        self.account = Account()
        self.explaining = Explaining(self.account, lesson.addresses)
        self.lines = [f"{lesson.path}: {lesson.title}"]
        for are_words, items in groupby(lesson.items, lambda item: isinstance(item, Words)):
            self.lines.append("")
            for item in items:
                self.add(item, are_words)
        self.lines += ["", self.sum()]

    def is_right(self):
        return self.not_met == 0 and self.not_as_worked_out == 0

    def sum(self):
        met = f"{counted(self.met, 'expectation', 'expectations')} met, {self.not_met} not met"
        others = counted(self.not_as_worked_out, "ANSWER", "ANSWERS")
        return f"{met}, {others} NOT AS WORKED OUT" if self.not_as_worked_out else met

    def add(self, item, are_words):
        if are_words:
            self.lines.append(item.text)
        elif isinstance(item, Expectation):
            self.add_expectation(item)
        else:
            self.lines.append(lesson_line(item))
            if isinstance(item, Step):
                self.add_answers(item)

    def add_answers(self, step):
        """A row for each answer of the step; rows that are alike are told once."""
        first = self.told + 1
        answers = self.answers[self.told : self.told + step.times]
        self.told += step.times
        pairs = [(answer, self.account.play(step.line, step.call, answer)) for answer in answers]
        self.of_line[step.line] = pairs
        rows = [(f"{step.call.kind} {answer}", self.words(step.call, answer, worked)) for answer, worked in pairs]
        for (line, words), alike in groupby(rows):
            last = first + len(list(alike)) - 1
            numbers = str(first) if first == last else f"{first}-{last}"
            self.lines.append(under(f"{numbers} {line}", words[0][1]))
            self.lines += [under(*more) for more in words[1:]]
            first = last + 1

    def words(self, call, answer, worked):
        """The rows of an answer, each with its heading."""
        rows = [("", answer_words(call, answer))]
        other = difference(call, answer, worked)
        if other:
            self.not_as_worked_out += 1
            rows.append(("NOT AS WORKED OUT", other))
        return rows + [("", line) for line in self.explaining.words(call, answer, worked)]

    def add_expectation(self, item):
        """Met if every call of its step answered so."""
        pairs = self.of_line[item.step.line]
        others = [answer for answer, _ in pairs if answer != item.answer]
        if others:
            expected, found = answer_words(item.step.call, item.answer), answer_words(item.step.call, others[0])
            self.add_not_met(item, expected, found)
            return
        left = [leaving_tags(*pair) for pair in pairs] if item.tags is not None else []
        other_tags = [tags for tags in left if tags != item.tags]
        if other_tags:
            found = "tags that are not known" if other_tags[0] is None else leaves(other_tags[0])
            self.add_not_met(item, leaves(item.tags), found)
            return
        self.met += 1
        are_shown = item.tags is None or all(answer.written for answer, _ in pairs)
        note = "met" if are_shown else "met, but the tags are worked out: the bench program shows none"
        self.lines.append(f"{lesson_line(item)}  [{note}]")

    def add_not_met(self, item, expected, found):
        self.not_met += 1
        self.lines += [f"{lesson_line(item)}  [NOT MET]", under("expected", expected), under("found", found)]


def difference(call, answer, worked):
    """How the bench program's answer is not as worked out, in words; None if it is."""
    if worked is None:
        return None
    if worked.answer != answer:
        return f"by the rules: {answer_words(call, worked.answer)}"
    if isinstance(worked.why, Departure) and answer.written not in (None, worked.why.bytes()):
        shown = tags_of(answer.written)
        return f"by its bytes it {leaves(shown)}{', but with other bytes' if shown == worked.why.shown_tags() else ''}"
    return None


def leaving_tags(answer, worked):
    """The tags that a frame left with: those of its bytes if they are shown, else those worked out; None if neither."""
    if isinstance(answer, Done) and answer.written:
        return tags_of(answer.written)
    is_known = worked is not None and isinstance(worked.why, Departure)
    return worked.why.shown_tags() if is_known else None


def leaves(tags):
    return f"leaves {tags_words(tags)}"


def lesson_line(item):
    return f"{item.line:4}  {quoted(item.text, LESSON_WIDTH)}"


def under(line, words):
    return f"        {line:{LINE_WIDTH}}  {words}"
