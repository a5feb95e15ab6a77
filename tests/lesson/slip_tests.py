"""Each lesson tells its slip: on a copy of the model with that one fault, what it expects is not met."""

import unittest

import copies
import support
from front_end.reading import Words, read_file

# Lesson, fault, and what the first expectation that is not met finds.
TOLD = (
    ("1-port-or-frame", "assignment-1-takes-the-default", "arrived at port 0, queued at ports 1 and 4"),
    ("2-priority-tag", "vid-0-is-looked-up", "arrived at port 0, dropped: VID not in the table (reason 8)"),
    ("3-second-tag", "missing-second-gives-the-outermost", "arrived at port 0, queued at port 2"),
    ("4-learned-address", "all-vlans-share-addresses", "arrived at port 0, queued at port 1"),
    ("4-learned-address", "marked-entries-go", "3 entries removed"),
    ("4-learned-address", "marks-stay", "0 entries removed"),
    ("4-learned-address", "hit-does-not-mark", "1 entry removed"),
    ("5-stored-once", "cells-a-copy", "arrived at port 0, dropped: no room (reason 13)"),
    ("6-first-departure", "freed-at-first-departure", "arrived at port 0, queued at ports 1, 2, 3 and 4"),
    ("6-first-departure", "freed-at-first-drain", "arrived at port 0, queued at ports 1, 2, 3 and 4"),
    (
        "7-new-tags",
        "pcp-from-the-earlier-operation",
        "leaves with tags 88A8 VID 300 PCP 6 DEI 0, 8100 VID 200 PCP 6 DEI 0 and 8100 VID 10 PCP 1 DEI 0",
    ),
    ("8-no-member", "found-port-is-no-member", "arrived at port 0, queued at port 3"),
    ("9-own-sender", "learned-before-lookup", "arrived at port 2, dropped: no candidate port (reason 11)"),
)

FAULTS = tuple(fault for _, fault, _ in TOLD)


@support.for_each({f"{lesson} tells {fault}": (lesson, fault, found) for lesson, fault, found in TOLD})
class Slip(unittest.TestCase):
    def check(self, case):
        lesson, fault, found = case
        report = support.reported(read_file(support.lesson_path(lesson)), [str(copies.program(FAULTS)), fault, "--bytes"])
        rows = [line.split(None, 1) for line in report.lines]
        first = next((row[1] for row in rows if row and row[0] == "found"), None)
        self.assertEqual(first, found, "\n".join(report.lines))
        self.assertGreater(report.not_as_worked_out, 0)


class EverySlip(unittest.TestCase):
    def test_every_class_slip_has_a_lesson(self):
        slips = {fault.name for fault in copies.faults().values() if fault.words.startswith("class slip: ")}
        self.assertEqual(len(slips), 5)
        self.assertLessEqual(slips, set(FAULTS))

    def test_every_lesson_tells_a_slip(self):
        self.assertEqual({lesson for lesson, _, _ in TOLD}, {path.stem for path in support.LESSONS})

    def test_every_lesson_says_what_the_slip_would_have_shown(self):
        for path in support.LESSONS:
            words = [item.text for item in read_file(path).items if isinstance(item, Words)]
            self.assertTrue(words[-1].startswith("The slip would have shown: "), path)
