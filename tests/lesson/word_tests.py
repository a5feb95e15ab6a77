"""Every reason and every refusal that a record can bring, brought about on the bench commands and told in its words."""

import unittest

import support
from front_end.answers import Done, Refused

FRAME = "frame at 0: from 02:00:00:00:00:01 to 02:00:00:00:00:02"

# The rules' table: the number, its words, and lines whose last is dropped for it.
REASONS = {
    1: ("shorter than 60", [f"{FRAME}, 59 bytes"]),
    2: ("longer than 4,083", [f"{FRAME}, 4084 bytes"]),
    3: ("source has the group bit", ["frame at 0: from broadcast to 02:00:00:00:00:02"]),
    4: ("tag count barred at this port", ["port 0: bars 0 tags", FRAME]),
    5: ("port Blocking", ["port 0: state blocking", FRAME]),
    6: ("port Listening", ["port 0: state listening", FRAME]),
    7: ("assigned VID 4095", [f"{FRAME}, tag 8100 vid 4095"]),
    8: ("VID not in the table", ["clear vlan 1", FRAME]),
    9: ("arrival port no member", ["vlan 1: ports 1 2 3 4", FRAME]),
    10: ("port Learning", ["port 0: state learning", FRAME]),
    11: ("no candidate port", ["vlan 1: ports 0", FRAME]),
    12: ("no port left after state and queue tests", ["vlan 1: ports 0 1", "queue 0 at 1: off", FRAME]),
    13: ("no room", [f"3 times: {FRAME}, 4083 bytes", f"{FRAME}, 4083 bytes"]),
}

# Addresses of one bucket: two equal groups of 10 bits join to 0.
ONE_BUCKET = [":".join(f"{byte:02X}" for byte in (number << 10 | number).to_bytes(6, "big")) for number in range(21)]

# The table of refused calls, without what no record of a lesson can bring: 1, 5 and 10.
REFUSALS = {
    2: ("port above 4", ["take at 5"]),
    3: ("another value outside its range", ["map pcp 8: queue 0"]),
    4: ("setting a static address with the group bit", ["static broadcast in gid 0: port 0"]),
    6: ("new VLAN, 16 in use", [f"vlan {vid}: ports 0" for vid in range(2, 18)]),
    7: ("clearing a VLAN not there", ["clear vlan 2"]),
    8: (
        "static address new and all its 20 places in use",
        [f"static {address} in gid 0: port 0" for address in ONE_BUCKET],
    ),
    9: ("removing an address not there", ["remove 02:00:00:00:00:01 in gid 0"]),
    11: ("bad record", ["record kind 99: 00"]),
}

ON_BENCHES = [(command, " ".join(command)) for command in support.BENCHES]


def on_benches(table):
    return {f"{number} on {name}": (number, *case, command) for number, case in table.items() for command, name in ON_BENCHES}


@support.for_each(on_benches(REASONS))
class Reason(unittest.TestCase):
    def check(self, case):
        number, words, lines, command = case
        report = support.reported(support.lesson(*lines, f"expect dropped: {words}"), command)
        self.assertEqual((report.met, report.not_met), (1, 0), "\n".join(report.lines))
        self.assertEqual(report.answers[-1], Done(number, 0))
        self.assertIn(f"arrived at port 0, dropped: {words} (reason {number})", "\n".join(report.lines))


@support.for_each(on_benches(REFUSALS))
class Refusal(unittest.TestCase):
    def check(self, case):
        number, words, lines, command = case
        report = support.reported(support.lesson(*lines, f"expect refused: {words}"), command)
        self.assertEqual((report.met, report.not_met), (1, 0), "\n".join(report.lines))
        self.assertEqual(report.answers[-1], Refused(number))
        self.assertNotIn(Refused(number), report.answers[:-1])
        self.assertIn(f"refused: {words} (refusal {number})", "\n".join(report.lines))


# Statements with an answer, and the words that stand beside the bench program's line.
WORDS = {
    "port": (
        "port 0: state learning, assignment second, vid 10, pcp 3, dei 1, bars 0 2 tags, operation push 88A8 vid second pcp 5",
        Done(),
        "done: port 0 Learning, assignment second, default VID 10 PCP 3 DEI 1, bars tag count 0 and 2,"
        " operation push 88A8 VID second PCP 5 DEI 0",
    ),
    "VLAN": (
        "vlan 10: ports 0 1 4, gid 3, operation swap 8100 vid 20 pcp outermost",
        Done(),
        "done: VLAN 10 with ports 0, 1 and 4, GID 3, operation swap 8100 VID 20 PCP outermost",
    ),
    "VLAN without a member": ("vlan 10: ports none", Done(), "done: VLAN 10 with no ports, GID 0, operation none"),
    "clear VLAN": ("clear vlan 10", Done(), "done: VLAN 10 cleared"),
    "static": (
        "static 02:ab:00:00:00:01 in gid 3: port 2",
        Done(),
        "done: 02:AB:00:00:00:01 under GID 3 static at port 2",
    ),
    "remove": ("remove broadcast in gid 3", Done(), "done: FF:FF:FF:FF:FF:FF under GID 3 removed"),
    "map": ("map pcp 5: queue 3", Done(), "done: PCP 5 goes to queue 3"),
    "queue": ("queue 2 at 1: off", Done(), "done: queue 2 of port 1 off"),
    "BPDU handling": ("bpdu handling: on", Done(), "done: BPDU handling on"),
    "queued at one port": (FRAME, Done(0, 2), "arrived at port 0, queued at port 1\n"),
    "queued at all": (FRAME, Done(0, 30), "arrived at port 0, queued at ports 1, 2, 3 and 4\n"),
    "reason without words": (FRAME, Done(14, 0), "arrived at port 0, dropped: 14 (reason 14)"),
    "taken": ("take at 1", Done(60, 2), "port 1 sends 60 bytes from queue 2"),
    "empty": ("take at 1", Done(), "port 1 is empty"),
    "one drained": ("drain at 1", Done(1, 0), "1 copy drained at port 1"),
    "three drained": ("drain at 1", Done(3, 0), "3 copies drained at port 1"),
    "one removed": ("age", Done(1, 0), "1 entry removed"),
    "none removed": ("age", Done(), "0 entries removed"),
    "counter": ("counter no room at 3", Done(7, 0), "counter 'no room' at port 3 has value 7"),
    "any record": ("record kind 20: 01", Done(5, 6), "record kind 20 is done: 5 6"),
    "refusal of memory": ("age", Refused(1), "refused: a lent memory has no length listed, or not the one that the fresh"),
    "refusal of a buffer": ("age", Refused(5), "refused: take-out buffer under 4,091 bytes (refusal 5)"),
    "refusal of a field": ("age", Refused(10), "refused: memory met on this call's way holds a field out of its range"),
    "refusal without words": ("age", Refused(12), "refused: 12 (refusal 12)"),
}


@support.for_each(WORDS)
class Words(unittest.TestCase):
    def check(self, case):
        line, answer, words = case
        self.assertIn(f"  {words}", support.told(support.lesson(line), [answer]))


class Rows(unittest.TestCase):
    def test_alike_answers_are_told_once(self):
        report = support.told(support.lesson("age", "4 times: age"), [Done(2), Done(1), Done(1), Done(1), Done(0)])
        rows = [" ".join(line.split()[:5]) for line in report.splitlines() if " ok " in line]
        self.assertEqual(rows, ["1 3 ok 2 0", "2-4 3 ok 1 0", "5 3 ok 0 0"])
