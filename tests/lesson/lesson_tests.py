"""Every lesson on every bench command: all expectations met, and each one able to fail."""

import unittest

import support
from front_end import bench
from front_end.answers import Done, Refused
from front_end.reading import Expectation, Words, read_file
from front_end.report import Report

# The model shows the bytes of a take too, if asked: then the expected tags are checked by them.
COMMANDS = {" ".join(command): command for command in [*support.BENCHES, [str(support.MODEL), "--bytes"]]}
RUNS = {f"{path.stem} on {name}": (path, command) for path in support.LESSONS for name, command in COMMANDS.items()}


def other(answer):
    """An answer that is not this one."""
    return Refused(answer.number + 1) if isinstance(answer, Refused) else Done(answer.x + 1, answer.y)


@support.for_each(RUNS)
class AllMet(unittest.TestCase):
    def check(self, case):
        path, command = case
        report = support.reported(read_file(path), command)
        self.assertTrue(report.is_right(), "\n".join(report.lines))
        self.assertGreater(report.met, 0)
        self.assertEqual(report.lines[-1], f"{report.met} expectations met, 0 not met")


@support.for_each({path.stem: path for path in support.LESSONS})
class EachCanFail(unittest.TestCase):
    """One answer changed behind one expectation: exactly the expectations on that answer are not met."""

    def check(self, path):
        lesson = read_file(path)
        answers = bench.run(support.BENCHES[0], lesson.calls())
        expectations = [item for item in lesson.items if isinstance(item, Expectation)]
        first_answer = {}
        taken = 0
        for step in lesson.steps():
            first_answer[step.line] = taken
            taken += step.times
        for expectation in expectations:
            changed = list(answers)
            last = first_answer[expectation.step.line] + expectation.step.times - 1
            changed[last] = other(changed[last])
            report = Report(lesson, changed)
            on_that_answer = [item for item in expectations if item.step is expectation.step]
            self.assertEqual(report.not_met, len(on_that_answer), expectation.text)
            self.assertEqual(report.not_as_worked_out, 1, expectation.text)


@support.for_each({path.stem: path for path in support.LESSONS})
class ForTheStudent(unittest.TestCase):
    """A lesson opens with two or three lines for the student, and ends with what the student should see."""

    def check(self, path):
        items = read_file(path).items
        opening = next(place for place, item in enumerate(items) if not isinstance(item, Words))
        self.assertIn(opening, (2, 3))
        last_call = max(place for place, item in enumerate(items) if not isinstance(item, Words))
        closing = items[last_call + 1 :]
        self.assertTrue(closing and closing[0].text.startswith("You should have seen: "))


class FirstMorning(unittest.TestCase):
    def test_nine_lessons(self):
        self.assertEqual([path.stem.split("-")[0] for path in support.LESSONS], [str(number) for number in range(1, 10)])
