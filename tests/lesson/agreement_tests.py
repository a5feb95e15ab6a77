"""The account and the bench program: an answer that is not as worked out is told loudly, and the status is 1."""

import sys
import unittest

import support
from front_end.answers import Done, Refused
from front_end.report import Report, under

FRAME = "frame at 0: from 02:00:00:00:00:01 to 02:00:00:00:00:02"

FLOODED = "arrived at port 0, queued at ports 1, 2, 3 and 4"

# A lesson that expects nothing, the answers of a bench program, and the answer by the rules.
LIES = {
    "another mask": ([FRAME], [Done(0, 2)], FLOODED),
    "another outcome": ([FRAME], [Done(11, 0)], FLOODED),
    "another reason": ([f"{FRAME}, 59 bytes"], [Done(2, 0)], "arrived at port 0, dropped: shorter than 60 (reason 1)"),
    "another length": ([FRAME, "take at 1"], [Done(0, 30), Done(64, 0)], "port 1 sends 60 bytes from queue 0"),
    "another queue": ([FRAME, "take at 1"], [Done(0, 30), Done(60, 3)], "port 1 sends 60 bytes from queue 0"),
    "nothing sent": ([FRAME, "take at 1"], [Done(0, 30), Done()], "port 1 sends 60 bytes from queue 0"),
    "sent twice": ([FRAME, "2 times: take at 1"], [Done(0, 30), Done(60), Done(60)], "port 1 is empty"),
    "aged too much": ([FRAME, "age"], [Done(0, 30), Done(1)], "0 entries removed"),
    "drained too little": ([FRAME, "drain at 4"], [Done(0, 30), Done(0)], "1 copy drained at port 4"),
    "a counter that is made up": ([FRAME, "counter sent at 0"], [Done(0, 30), Done(1)], "counter 'sent' at port 0 has value 0"),
    "refused without need": ([FRAME], [Refused(2)], FLOODED),
    "a port that should be refused": ([FRAME.replace("at 0", "at 9")], [Done(0, 2)], "refused: port above 4 (refusal 2)"),
    "another refusal": (["take at 5"], [Refused(3)], "refused: port above 4 (refusal 2)"),
    "a setting that should be refused": (["clear vlan 9"], [Done()], "refused: clearing a VLAN not there (refusal 7)"),
}

# The same for bytes that are shown, and what the report says of them.
WRONG_BYTES = {
    "other tags": (
        ["vlan 1: ports 0 1, operation push 8100 vid 7 pcp 5", f"{FRAME}, 64 bytes", "take at 1"],
        [Done(), Done(0, 2), Done(68, 0, bytes.fromhex("020000000002 020000000001 81000007 88B5").ljust(68, b"\0"))],
        "by its bytes it leaves with tag 8100 VID 7 PCP 0 DEI 0",
    ),
    "thousands of tags": (
        [f"{FRAME}, 4083 bytes", "take at 1"],
        [Done(0, 30), Done(4083, 0, (bytes(12) + bytes.fromhex("81000007") * 1021)[:4083])],
        "by its bytes it leaves with tags "
        + "8100 VID 7 PCP 0 DEI 0, " * 7
        + "8100 VID 7 PCP 0 DEI 0 and 1009 more",
    ),
    "other bytes": (
        [FRAME, "take at 1"],
        [Done(0, 30), Done(60, 0, bytes.fromhex("020000000002 020000000001 88B5 01").ljust(60, b"\0"))],
        "by its bytes it leaves untagged, but with other bytes",
    ),
}

# A bench program that lies about the first frame: the model's lines, but for the mask of ports.
LIAR = """import subprocess, sys
said = subprocess.run([{model!r}], stdin=sys.stdin, capture_output=True, text=True, check=True).stdout
sys.stdout.write(said.replace("1 1 ok 0 30", "1 1 ok 0 14", 1))
"""


@support.for_each({name: (*case, f"by the rules: {words}") for name, (*case, words) in LIES.items()} | WRONG_BYTES)
class Lie(unittest.TestCase):
    def check(self, case):
        lines, answers, words = case
        report = Report(support.lesson(*lines), answers)
        self.assertIn(under("NOT AS WORKED OUT", words), report.lines)
        self.assertEqual((report.not_met, report.not_as_worked_out), (0, 1))
        self.assertFalse(report.is_right())
        self.assertEqual(report.lines[-1], "0 expectations met, 0 not met, 1 ANSWER NOT AS WORKED OUT")


class Command(support.CommandCase):
    def setUp(self):
        super().setUp()
        self.lesson = self.file("a.lesson", f"lesson: one\n{FRAME}\ncounter offered at 0\nexpect value 1\n")

    def test_a_bench_command_that_lies(self):
        liar = self.file("liar.py", LIAR.format(model=str(support.MODEL)))
        said = self.ends(1, "run", self.lesson, "--bench", f"{sys.executable} {liar}")[0].decode()
        self.assertIn("arrived at port 0, queued at ports 1, 2 and 3\n", said)
        self.assertIn(under("NOT AS WORKED OUT", f"by the rules: {FLOODED}") + "\n", said)
        self.assertIn("1 expectation met, 0 not met, 1 ANSWER NOT AS WORKED OUT\n", said)

    def test_one_that_does_not(self):
        self.assertNotIn(b"NOT AS WORKED OUT", self.ends(0, "run", self.lesson, "--bench", str(support.MODEL))[0])


# A frame that leaves with a tag, what is expected of its tags, and whether that is met if the bytes are not shown.
TAGGED = ["vlan 1: ports 0 1, operation push 8100 vid 7 pcp 5", f"{FRAME}, 64 bytes", "take at 1"]
EXPECTED_TAGS = {
    "right": ("expect 68 bytes from queue 0, tag 8100 vid 7 pcp 5", True),
    "another PCP": ("expect 68 bytes from queue 0, tag 8100 vid 7 pcp 4", False),
    "another type": ("expect 68 bytes from queue 0, tag 88A8 vid 7 pcp 5", False),
    "one more": ("expect 68 bytes from queue 0, tag 8100 vid 7 pcp 5, tag 8100 vid 1", False),
    "none": ("expect 68 bytes from queue 0, untagged", False),
}


@support.for_each(EXPECTED_TAGS)
class ExpectedTags(unittest.TestCase):
    def check(self, case):
        expectation, is_met = case
        for command in ([str(support.MODEL)], [str(support.MODEL), "--bytes"]):
            report = support.reported(support.lesson(*TAGGED, expectation), command)
            self.assertEqual(report.not_met, 0 if is_met else 1, "\n".join(report.lines))
            note = "[met, but the tags are worked out: the bench program shows none]"
            says_worked_out = any(line.endswith(note) for line in report.lines)
            self.assertEqual(says_worked_out, is_met and len(command) == 1)

    def test_tags_behind_a_record_are_not_known(self):
        lesson = support.lesson("record kind 20: 01", *TAGGED, EXPECTED_TAGS["right"][0])
        report = Report(lesson, [Done(), Done(), Done(0, 2), Done(68, 0)])
        self.assertEqual(report.not_met, 1)
        self.assertIn(under("found", "tags that are not known"), report.lines)
