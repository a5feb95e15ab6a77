"""The records of the statements, byte for byte, and the rules' worked example."""

import subprocess
import unittest

import support
from front_end.calls import records

HEADER = "02 00 00 00 00 02  02 00 00 00 00 01"
ADDRESSES = ("address A is 02:00:00:00:00:01", "address B is 02:00:00:00:00:02")

RECORDS = {
    "frame, untagged, 60 bytes": ("frame at 3: from A to B", f"3F00 0100 03 {HEADER} 88B5" + "00" * 46),
    "frame with two tags": (
        "frame at 0: from A to B, tag 8100 vid 20 pcp 5, tag 88A8 vid 4095 pcp 7 dei 1, 64 bytes",
        f"4300 0100 00 {HEADER} 8100 A014 88A8 FFFF 88B5" + "00" * 42,
    ),
    "frame cut in its addresses": ("frame at 0: from A to B, 7 bytes", "0A00 0100 00 02 00 00 00 00 02 02"),
    "frame without a byte": ("frame at 0: from A to B, 0 bytes", "0300 0100 00"),
    "BPDU, 0 bytes behind its destination": ("frame at 0: from A to BPDU, 6 bytes", "0900 0100 00 0180C2000000"),
    "take": ("take at 5", "0300 0200 05"),
    "age": ("age", "0200 0300"),
    "counter": ("counter queue off at 4", "0400 0400 04 12"),
    "counter with 'at' and a reason": ("counter tag count barred at this port at 2", "0400 0400 02 04"),
    "counter with a comma": ("counter longer than 4,083 at 2", "0400 0400 02 02"),
    "counter by number": ("counter 21 at 0", "0400 0400 00 15"),
    "port, all fresh but one": ("port 1: state Disabled", "1200 0500 01 00 01 0100 00 00 00 00000000 0000 0000"),
    "port, every part": (
        "port 2: operation swap 88A8 vid second pcp 6 dei 1, bars 0 2 tags, dei 1, pcp 3, vid 300, assignment default,"
        " state learning",
        "1200 0500 02 03 00 2C01 03 01 05 03010102 0000 0601",
    ),
    "port out of range": (
        "port 9: state 5, assignment 3, vid 65535, pcp 255, dei 2, bars 7 tags",
        "1200 0500 09 05 03 FFFF FF 02 80 00000000 0000 0000",
    ),
    "VLAN": ("vlan 300: ports 0 1 4", "0E00 0600 2C01 13 00 00000000 0000 0000"),
    "VLAN, every part": (
        "vlan 4094: ports 5, gid 15, operation push 8100 vid 4095 pcp outermost",
        "0E00 0600 FE0F 20 0F 02000200 FF0F 0000",
    ),
    "VLAN without a member": ("vlan 2: ports none, operation pop-all", "0E00 0600 0200 00 00 04000000 0000 0000"),
    "clear VLAN": ("clear vlan 300", "0400 0700 2C01"),
    "static": ("static A in gid 3: port 2", "0A00 0800 03 02 020000000001"),
    "remove": ("remove 01:23:45:67:89:aB in gid 15", "0900 0900 0F 0123456789AB"),
    "map": ("map pcp 5: queue 3", "0400 0A00 05 03"),
    "queue off": ("queue 2 at 1: off", "0500 0B00 01 02 00"),
    "queue on": ("queue 2 at 1: on", "0500 0B00 01 02 01"),
    "drain": ("drain at 4", "0300 0C00 04"),
    "BPDU handling": ("bpdu handling: on", "0300 0D00 01"),
    "any record": ("record kind 258: 00 fF", "0400 0201 00 FF"),
    "any record without a body": ("record kind 3:", "0200 0300"),
    "three times": ("3 times: take at 1", "0300 0200 01" * 3),
    "capitals and spaces": ("  TAKE   At 1 ", "0300 0200 01"),
}

# The rules' counters, from 0.
COUNTERS = (
    "offered",
    "shorter than 60",
    "longer than 4,083",
    "source has the group bit",
    "tag count barred at this port",
    "port Blocking",
    "port Listening",
    "assigned VID 4095",
    "VID not in the table",
    "arrival port no member",
    "port Learning",
    "no candidate port",
    "no port left after state and queue tests",
    "no room",
    "accepted",
    "not learned",
    "queued",
    "state",
    "queue off",
    "sent",
    "drained",
)

EXAMPLE = """lesson: The rules' worked example
address A is 02:00:00:00:00:01
address B is 02:00:00:00:00:02
frame at 0: from A to B, 60 bytes
expect queued at 1 2 3 4
frame at 1: from B to A, 60 bytes
expect queued at 0
take at 0
expect 60 bytes from queue 0
take at 0
expect empty
frame at 2: from A to B, 59 bytes
expect dropped: shorter than 60
take at 5
expect refused: port above 4
age
expect 0 entries removed
age
expect 2 entries removed
"""

EXAMPLE_LINES = """1 1 ok 0 30
2 1 ok 0 1
3 2 ok 60 0
4 2 ok 0 0
5 1 ok 1 0
6 2 refused 2
7 3 ok 0 0
8 3 ok 2 0
"""


@support.for_each(RECORDS)
class Record(unittest.TestCase):
    def check(self, case):
        line, expected = case
        self.assertEqual(records(support.lesson(*ADDRESSES, line).calls()).hex(), bytes.fromhex(expected).hex())


class Counters(unittest.TestCase):
    def test_every_name(self):
        lesson = support.lesson(*(f"counter {name} at 3" for name in COUNTERS))
        self.assertEqual(records(lesson.calls()), b"".join(bytes([4, 0, 4, 0, 3, number]) for number in range(21)))


@support.for_each({" ".join(command): command for command in support.BENCHES})
class Example(unittest.TestCase):
    def check(self, command):
        lesson = support.read_lesson("example.lesson", EXAMPLE)
        ran = subprocess.run(command, input=records(lesson.calls()), stdout=subprocess.PIPE, check=True)
        self.assertEqual(ran.stdout.decode(), EXAMPLE_LINES)
        report = support.reported(lesson, command)
        self.assertEqual((report.met, report.not_met), (8, 0))
