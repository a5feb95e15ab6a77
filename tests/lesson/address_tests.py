"""Why the ports are those that they are: the address decision, learning, ageing and what falls out, in the report's words."""

import re
import unittest

import support
from front_end.frames import BROADCAST
from front_end.table import AddressTable, bucket

A, B = "02:00:00:00:00:01", "02:00:00:00:00:02"
NAMES = (f"address press is {A}", f"address robot is {B}")

# Addresses of one bucket: two equal groups of 10 bits join to 0. They fill its four places and the sixteen spares.
FULL = [":".join(f"{byte:02X}" for byte in (number << 10 | number).to_bytes(6, "big")) for number in range(20)]
FILLED = [f"static {address} in gid 0: port 3" for address in FULL]
NOT_THERE = ":".join(f"{byte:02X}" for byte in (20 << 10 | 20).to_bytes(6, "big"))

# Lines of a lesson, and lines that the report has behind its last.
WHY = {
    "unknown": (
        ["frame at 0: from press to robot"],
        ["robot is unknown in GID 0, so flooded to the other members: ports 1, 2, 3 and 4", "press is learned at port 0"],
    ),
    "unknown, by its address": (
        [f"frame at 0: from press to {B.replace('02', '06', 1)}"],
        ["06:00:00:00:00:02 is unknown in GID 0, so flooded to the other members: ports 1, 2, 3 and 4"],
    ),
    "group address": (
        ["frame at 0: from press to broadcast"],
        ["broadcast is a group address, so all other members: ports 1, 2, 3 and 4"],
    ),
    "group address without another member": (
        ["vlan 1: ports 0", "frame at 0: from press to broadcast"],
        ["broadcast is a group address, so all other members: there are none, so no candidate"],
    ),
    "unknown without another member": (
        ["vlan 1: ports 0", "frame at 0: from press to robot"],
        ["robot is unknown in GID 0, so flooded to the other members: there are none, so no candidate"],
    ),
    "found, learned": (
        ["frame at 1: from robot to broadcast", "frame at 0: from press to robot"],
        ["robot is found in GID 0 at port 1 (learned), so that port alone", "press is learned at port 0"],
    ),
    "found, static": (
        ["static robot in gid 0: port 2", "frame at 0: from press to robot"],
        ["robot is found in GID 0 at port 2 (static), so that port alone"],
    ),
    "found at its own arrival port": (
        ["frame at 0: from robot to broadcast", "frame at 0: from press to robot"],
        ["robot is found in GID 0 at port 0 (learned), where the frame arrived, so no candidate"],
    ),
    "found at a port that is no member": (
        ["static robot in gid 0: port 3", "vlan 1: ports 0 1 2 4", "frame at 0: from press to robot"],
        ["robot is found in GID 0 at port 3 (static), no member of VLAN 1, so no candidate"],
    ),
    "to its own sender": (
        ["frame at 2: from press to press"],
        ["press is unknown in GID 0, so flooded to the other members: ports 0, 1, 3 and 4", "press is learned at port 2"],
    ),
    "to its own sender again": (
        ["2 times: frame at 2: from press to press"],
        ["press is found in GID 0 at port 2 (learned), where the frame arrived, so no candidate"],
    ),
    "of another GID": (
        ["vlan 5: ports 0 1, gid 7", "frame at 1: from robot to broadcast", "frame at 0: from press to robot, tag 8100 vid 5"],
        ["robot is unknown in GID 7, so flooded to the other members: port 1"],
    ),
    "of the same GID": (
        ["vlan 5: ports 0 1, gid 0", "frame at 1: from robot to broadcast", "frame at 0: from press to robot, tag 8100 vid 5"],
        ["robot is found in GID 0 at port 1 (learned), so that port alone"],
    ),
    "known source": (
        ["2 times: frame at 0: from press to broadcast"],
        ["press is known at port 0 and marked as used"],
    ),
    "source that moves": (
        ["frame at 0: from press to broadcast", "frame at 3: from press to broadcast"],
        ["press moves from port 0 to port 3"],
    ),
    "static source elsewhere": (
        ["static press in gid 0: port 2", "frame at 0: from press to broadcast"],
        ["press is static at port 2 and stays"],
    ),
    "not learned": (
        [*FILLED, f"frame at 0: from {NOT_THERE} to broadcast"],
        [f"{NOT_THERE} is not learned: its 20 places are in use"],
    ),
    "a place that came free": (
        [*FILLED, f"remove {FULL[7]} in gid 0", f"frame at 0: from {NOT_THERE} to broadcast"],
        [f"{NOT_THERE} is learned at port 0"],
    ),
    "in a spare place": (
        [*FILLED, f"frame at 0: from press to {FULL[19]}"],
        [f"{FULL[19]} is found in GID 0 at port 3 (static), so that port alone"],
    ),
    "learned at a Learning port": (
        ["port 0: state learning", "frame at 0: from press to robot"],
        ["robot is unknown in GID 0, so flooded to the other members: ports 1, 2, 3 and 4", "press is learned at port 0"],
    ),
    "forgotten": (
        ["frame at 1: from robot to broadcast", "2 times: age", "frame at 0: from press to robot"],
        ["robot is unknown in GID 0, so flooded to the other members: ports 1, 2, 3 and 4"],
    ),
    "used between two ageing calls": (
        ["frame at 1: from robot to broadcast", "age", "frame at 0: from press to robot", "age", "frame at 2: from press to robot"],
        ["robot is found in GID 0 at port 1 (learned), so that port alone"],
    ),
    "ageing": (
        ["frame at 1: from robot to broadcast", "frame at 0: from press to broadcast", "age", "age"],
        ["gone, as unused since the ageing before: robot in GID 0 and press in GID 0"],
    ),
    "ageing of many": (
        [*(f"frame at 0: from {address} to broadcast" for address in FULL[:11]), "2 times: age"],
        ["00:00:00:00:1C:07 in GID 0 and 3 more"],
    ),
    "BPDU": (
        ["frame at 0: from press to bpdu"],
        ["a BPDU is neither looked up nor learned"],
    ),
    "falls by state": (
        ["vlan 1: ports 0 1 2", "port 1: state blocking", "frame at 0: from press to broadcast"],
        ["port 1 falls out, it is Blocking"],
    ),
    "falls by queue": (
        ["vlan 1: ports 0 1 2", "queue 0 at 2: off", "port 1: state learning", "frame at 0: from press to broadcast"],
        ["port 1 falls out, it is Learning; port 2 falls out, its queue 0 is off"],
    ),
    "no room": (
        ["4 times: frame at 0: from press to broadcast, 4083 bytes"],
        ["it takes 52 cells, free are 44"],
    ),
}


@support.for_each(WHY)
class Why(unittest.TestCase):
    def check(self, case):
        lines, words = case
        report = support.reported(support.lesson(*NAMES, *lines))
        self.assertTrue(report.is_right())
        told = "\n".join(report.lines).split(f"  {lines[-1]}\n")[-1]
        for line in words:
            self.assertRegex(told, rf"worked out: (.*, )?{re.escape(line)}(\n|$)")


class NotAsked(unittest.TestCase):
    def test_frames_that_rules_1_to_9_drop_are_not_looked_up(self):
        lines = ["port 0: bars 0 tags", "frame at 0: from press to robot", "frame at 1: from broadcast to robot"]
        lines += ["frame at 2: from press to robot, tag 8100 vid 9", "vlan 1: ports 0", "frame at 3: from press to robot"]
        told = "\n".join(support.reported(support.lesson(*NAMES, *lines)).lines)
        for words in ("unknown", "found in", "learned at"):
            self.assertNotIn(words, told)


class Buckets(unittest.TestCase):
    def test_the_rules_cases(self):
        """Cases P7 to P9."""
        self.assertEqual(bucket(0, bytes.fromhex("020000000005")), 7)
        self.assertEqual(bucket(1, bytes(6)), 256)
        self.assertEqual(bucket(15, bytes(6)), 771)

    def test_address_0_is_an_address(self):
        table = AddressTable()
        self.assertIsNone(table.look_up(0, bytes(6)))
        table.learn(0, bytes(6), 3)
        self.assertEqual(table.look_up(0, bytes(6)).port, 3)
        self.assertIsNone(table.look_up(1, bytes(6)))
        self.assertIsNone(table.look_up(0, BROADCAST))
