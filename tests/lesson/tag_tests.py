"""Tags before and after: what the account of a lesson works out, against the bytes that the model writes."""

import itertools
import subprocess
import unittest

import support
from front_end.account import Account, Departure
from front_end.answers import Done, read_line
from front_end.calls import FrameIn, Take, records

OPERATIONS = (
    "none",
    "pop",
    "pop-all",
    "push 8100 vid 7 pcp 6 dei 1",
    "push 88A8 vid outermost pcp second",
    "swap 8100 vid second pcp outermost",
    "swap 88A8 vid 8 pcp second",
)
TAGS = (
    "",
    ", tag 8100 vid 0 pcp 3",
    ", tag 8100 vid 20 pcp 3, tag 88A8 vid 30 pcp 4 dei 1",
    ", tag 88A8 vid 20 pcp 1, tag 8100 vid 20, tag 8100 vid 40 pcp 7",
)
ASSIGNMENTS = ("default", "outermost", "second")

FRAME = "frame at 0: from 02:00:00:00:00:01 to 02:00:00:00:00:02"


def every_way():
    """Lesson lines: every assignment, VLAN operation, port operation and number of tags, with lengths at both sides of
    the padding."""
    for assignment, vlan_operation, port_operation in itertools.product(ASSIGNMENTS, OPERATIONS, OPERATIONS):
        yield f"port 0: assignment {assignment}, vid 10, pcp 5, dei 1"
        for vid in (10, 20, 30):
            yield f"vlan {vid}: ports 0 1, operation {vlan_operation}"
        for tags, length in itertools.product(TAGS, (60, 75)):
            yield f"port 1: operation {port_operation}"
            yield f"{FRAME}{tags}, {length} bytes"
            yield "take at 1"


class AgainstBytes(unittest.TestCase):
    def test_every_way(self):
        calls = support.lesson(*every_way()).calls()
        ran = subprocess.run([support.MODEL, "--bytes"], input=records(calls), stdout=subprocess.PIPE, check=True)
        account, frames, departures = Account(), 0, 0
        for call, line in zip(calls, ran.stdout.decode().splitlines(), strict=True):
            *answer, written = line.split() if isinstance(call, Take) else [*line.split(), ""]
            worked = account.play(0, call, None)
            self.assertEqual(worked.answer, read_line(" ".join(answer))[2])
            frames += isinstance(call, FrameIn)
            if isinstance(call, Take):
                self.assertIsInstance(worked.why, Departure)
                self.assertEqual(written, worked.why.bytes().hex())
                departures += 1
        self.assertEqual(departures, frames)
        self.assertEqual(departures, 3 * 7 * 7 * 4 * 2)


# Lessons on the bench program, and words that their reports hold.
WORKED_OUT = {
    "untagged": ([FRAME], "worked out: came untagged; assigned VID 1, queue 0"),
    "default PCP": (["port 0: pcp 7", FRAME], "came untagged; assigned VID 1, queue 3"),
    "priority tag": (
        ["port 0: vid 10", "vlan 10: ports 0 1", f"{FRAME}, tag 8100 vid 0 pcp 5"],
        "came with tag 8100 VID 0 PCP 5 DEI 0; assigned VID 10, queue 2",
    ),
    "map": (["map pcp 5: queue 0", f"{FRAME}, tag 8100 vid 1 pcp 5"], "assigned VID 1, queue 0"),
    "refused map": (["map pcp 5: queue 4", f"{FRAME}, tag 8100 vid 1 pcp 5"], "assigned VID 1, queue 2"),
    "second tag missing": (
        ["port 0: assignment second", f"{FRAME}, tag 8100 vid 20"],
        "came with tag 8100 VID 20 PCP 0 DEI 0; assigned VID 1, queue 0",
    ),
    "third tag": (
        ["port 0: assignment default", f"{FRAME}, tag 88A8 vid 2, tag 8100 vid 3, tag 8100 vid 4"],
        "came with tags 88A8 VID 2 PCP 0 DEI 0 and 8100 VID 3 PCP 0 DEI 0, third tag as payload; assigned VID 1, queue 0",
    ),
    "VID that is dropped": ([f"{FRAME}, tag 8100 vid 9"], "came with tag 8100 VID 9 PCP 0 DEI 0; assigned VID 9\n"),
    "no VID before rule 7": (
        ["port 0: state blocking", f"{FRAME}, tag 8100 vid 9"],
        "worked out: came with tag 8100 VID 9 PCP 0 DEI 0\n",
    ),
    "BPDU": (
        ["port 4: operation push 8100 vid 5", "frame at 0: from 02:00:00:00:00:01 to bpdu", "take at 4"],
        "worked out: frame of line 3, a BPDU; came untagged; leaves unchanged",
    ),
    "BPDU as it arrives": (
        ["frame at 0: from 02:00:00:00:00:01 to bpdu"],
        "worked out: came untagged; a BPDU to port 4, queue 3, no tag operation",
    ),
    "BPDU at port 4": (
        ["frame at 4: from 02:00:00:00:00:01 to bpdu"],
        "worked out: came untagged; assigned VID 1, queue 0",
    ),
    "BPDU with handling off": (
        ["bpdu handling: off", "frame at 0: from 02:00:00:00:00:01 to bpdu"],
        "worked out: came untagged; assigned VID 1, queue 0",
    ),
    "pushed": (
        ["port 1: operation push 8100 vid 5 pcp 2", FRAME, "take at 1"],
        "worked out: frame of line 3, VLAN 1; came untagged; leaves with tag 8100 VID 5 PCP 2 DEI 0",
    ),
    "popped": (
        ["vlan 1: ports 0 1, operation pop", f"{FRAME}, tag 8100 vid 1", "take at 1"],
        "came with tag 8100 VID 1 PCP 0 DEI 0; leaves untagged",
    ),
    "VLAN operation as it was on arrival": (
        ["vlan 1: ports 0 1, operation push 8100 vid 5", FRAME, "clear vlan 1", "take at 1"],
        "leaves with tag 8100 VID 5 PCP 0 DEI 0",
    ),
    "port operation as it is on leaving": (
        [FRAME, "port 1: operation push 8100 vid 5", "take at 1"],
        "leaves with tag 8100 VID 5 PCP 0 DEI 0",
    ),
    "refused operation": (
        ["port 1: operation push 8100 vid 4095", FRAME, "take at 1"],
        "worked out: frame of line 3, VLAN 1; came untagged; leaves unchanged",
    ),
    "highest queue first": ([FRAME, f"{FRAME}, tag 8100 vid 1 pcp 7", "take at 1"], "worked out: frame of line 3, VLAN 1;"),
    "oldest first": ([FRAME, FRAME, "take at 1"], "worked out: frame of line 2, VLAN 1;"),
    "each copy once": ([FRAME, FRAME, "take at 1", "take at 2", "take at 1"], "worked out: frame of line 3, VLAN 1;"),
    "drained frames are gone": ([FRAME, "drain at 1", FRAME, "take at 1"], "worked out: frame of line 4, VLAN 1;"),
}

# Made-up answers behind a record that was done: what the account cannot know.
NOT_KNOWN = {
    "departure behind a record": (
        ["record kind 20: 01", FRAME, "take at 1"],
        [Done(), Done(0, 2), Done(60, 0)],
        "tags: not known behind the record of line 2",
    ),
    "arrival behind a record": (
        ["record kind 20: 01", FRAME],
        [Done(), Done(0, 2)],
        "worked out: came untagged; VID, queue, address and why: not known behind the record of line 2",
    ),
    "behind the first of two records": (
        [FRAME, "record kind 20: 01", "record kind 21: 01", FRAME],
        [Done(0, 30), Done(), Done(), Done(0, 30)],
        "why: not known behind the record of line 3",
    ),
}


@support.for_each(WORKED_OUT)
class WorkedOut(unittest.TestCase):
    def check(self, case):
        lines, words = case
        self.assertIn(words, "\n".join(support.reported(support.lesson(*lines)).lines))


@support.for_each(NOT_KNOWN)
class NotKnown(unittest.TestCase):
    def check(self, case):
        lines, answers, words = case
        report = support.told(support.lesson(*lines), answers)
        self.assertIn(words, report)
        self.assertNotIn("leaves", report)
        self.assertNotIn("NOT AS WORKED OUT", report)


class Nothing(unittest.TestCase):
    def test_short_frames_and_refusals_have_nothing_worked_out(self):
        lines = [f"{FRAME}, 59 bytes", FRAME.replace("at 0", "at 5"), "take at 1", "take at 5"]
        self.assertNotIn("worked out", "\n".join(support.reported(support.lesson(*lines)).lines))

    def test_a_refused_record_changes_nothing(self):
        report = support.reported(support.lesson("record kind 99: 00", FRAME, "take at 1"))
        self.assertIn("came untagged; leaves unchanged", "\n".join(report.lines))
