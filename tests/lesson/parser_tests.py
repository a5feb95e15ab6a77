"""Bad lesson lines: each gives an error that names the file, the line and what was expected."""

import unittest

import support
from front_end.phrase import LessonError

# The lines of a lesson behind its title, and the error's words behind 'test.lesson:'.
BAD = {
    "unknown statement": (["age", "", "prot 0: vid 10"], "4: expected '>', '#', address, expect, or a statement: port, vlan,"),
    "unknown part": (["port 0: vip 10"], "2: expected one of state, assignment, vid, pcp, dei, bars, operation, found 'vip'"),
    "part twice": (["port 0: vid 10, vid 11"], "2: expected 'vid' only once, found 'vid'"),
    "part missing": (["port 0:"], "2: expected one of state, assignment,"),
    "part behind a comma missing": (["port 0: vid 10,"], "2: expected one of state, assignment,"),
    "comma missing": (["port 0: vid 10 pcp 3"], "2: expected the end of the line, found 'pcp'"),
    "colon missing": (["vlan 10 ports 0 1"], "2: expected ':', found 'ports'"),
    "space behind the colon missing": (["vlan 10:ports 0 1"], "2: expected a VID, a number 0 to 65535, found '10:ports'"),
    "VLAN without ports": (["vlan 10: gid 3"], "2: expected 'ports', found 'gid'"),
    "port that does not fit the mask": (["vlan 10: ports 0 8"], "2: expected a port, a number 0 to 7, found '8'"),
    "port twice": (["vlan 10: ports 0 4 0"], "2: expected a port only once, found '0'"),
    "number too large for its bytes": (["take at 256"], "2: expected a port, a number 0 to 255, found '256'"),
    "no number": (["take at one"], "2: expected a port, a number 0 to 255, found 'one'"),
    "negative number": (["take at -1"], "2: expected a port, a number 0 to 255, found '-1'"),
    "number missing": (["take at"], "2: expected a port, a number 0 to 255, found the end of the line"),
    "state of another name": (
        ["port 0: state up"],
        "2: expected a state: disabled, blocking, listening, learning, forwarding, or a number 0 to 255, found 'up'",
    ),
    "assignment of another name": (
        ["port 0: assignment inner"],
        "2: expected an assignment: default, outermost, second, or a number 0 to 255, found 'inner'",
    ),
    "operation of another name": (["port 0: operation peel"], "2: expected one of none, pop, push, swap, pop-all, found 'peel'"),
    "push without a type": (["port 0: operation push vid 3"], "2: expected one of 8100, 88a8, found 'vid'"),
    "push without a VID": (["port 0: operation push 8100 pcp 3"], "2: expected 'vid', found 'pcp'"),
    "push with an unknown source": (
        ["port 0: operation push 8100 vid third"],
        "2: expected a VID: outermost, second, or a number 0 to 65535, found 'third'",
    ),
    "DEI behind a PCP from a tag": (
        ["port 0: operation push 8100 vid 3 pcp second dei 1"],
        "2: expected the end of the line, found 'dei'",
    ),
    "pop with a tag": (["port 0: operation pop 8100"], "2: expected the end of the line, found '8100'"),
    "tag with a VID above 4095": (
        ["frame at 0: from broadcast to broadcast, tag 8100 vid 4096"],
        "2: expected a VID, a number 0 to 4095, found '4096'",
    ),
    "tag with a PCP above 7": (
        ["frame at 0: from broadcast to broadcast, tag 8100 vid 1 pcp 8"],
        "2: expected a PCP, a number 0 to 7, found '8'",
    ),
    "tag behind the length": (
        ["frame at 0: from broadcast to broadcast, 60 bytes, tag 8100 vid 1"],
        "2: expected the end of the line, found ','",
    ),
    "frame with another part": (
        ["frame at 0: from broadcast to broadcast, vid 1"],
        "2: expected 'tag', or a length in bytes, found 'vid'",
    ),
    "frame that no record holds": (
        ["frame at 0: from broadcast to broadcast, 65533 bytes"],
        "2: expected a length, a number 0 to 65532, found '65533'",
    ),
    "address cut": (
        ["frame at 0: from 02:00:00:00:01 to broadcast"],
        "2: expected an address such as 02:00:00:00:00:01, or the name of one, found '02:00:00:00:01'",
    ),
    "name not there": (
        ["address press is 02:00:00:00:00:01", "frame at 0: from pres to broadcast"],
        "3: expected an address such as 02:00:00:00:00:01, or the name of one, found 'pres'",
    ),
    "name taken": (
        ["address Broadcast is 02:00:00:00:00:01"],
        "2: expected a name that is not taken, found 'Broadcast'",
    ),
    "name that is none": (
        ["address 1st is 02:00:00:00:00:01"],
        "2: expected a name of letters, digits and _ that begins with a letter, found '1st'",
    ),
    "name for a name": (
        ["address everybody is broadcast"],
        "2: expected an address such as 02:00:00:00:00:01, found 'broadcast'",
    ),
    "counter of another name": (["counter lost at 0"], "2: expected a counter: offered; shorter than 60; longer than 4,083;"),
    "counter without a port": (["counter offered"], "2: expected 'at', found the end of the line"),
    "switch of another name": (["queue 1 at 0: maybe"], "2: expected one of on, off, found 'maybe'"),
    "tag expected behind another word": (
        ["take at 0", "expect 64 bytes from queue 0, vid 3"],
        "3: expected 'tag' or 'untagged', found 'vid'",
    ),
    "tag expected behind a comma": (
        ["take at 0", "expect 64 bytes from queue 0, tag 8100 vid 3, untagged"],
        "3: expected 'tag', found 'untagged'",
    ),
    "tags expected of an empty port": (["take at 0", "expect empty, untagged"], "3: expected the end of the line, found ','"),
    "number of very many digits": ([f"take at {'9' * 5000}"], f"2: expected a port, a number 0 to 255, found '{'9' * 58}..'"),
    "record that is too long": (
        [f"record kind 1: {'00' * 65534}"],
        "2: expected at most 65533 bytes, not 65534",
    ),
    "bytes that are many and none": (
        [f"record kind 1: {'0' * 4001}"],
        f"2: expected bytes such as 00 FF behind the colon, not '{'0' * 58}..'",
    ),
    "word of thousands of letters": ([f"{'p' * 9000} 0: vid 10"], "2: expected '>', '#', address, expect, or a statement: port,"),
    "letter that cannot be seen": (["take\u200b at 0"], "2: expected '>', '#', address,"),
    "half a byte": (["record kind 99: 00 F"], "2: expected bytes such as 00 FF behind the colon, not '00 F'"),
    "words behind a statement": (["age twice"], "2: expected the end of the line, found 'twice'"),
    "zero times": (["0 times: age"], "2: expected how many times, a number 1 to 1000, found '0'"),
    "number without 'times'": (["3 age"], "2: expected 'times', found 'age'"),
    "expectation times": (["age", "2 times: expect 0 entries removed"], "3: expected '>', '#', address, expect, or a statement:"),
    "expectation without a statement": (["expect done"], "2: expected a statement before the first 'expect'"),
    "unknown reason": (
        ["frame at 0: from broadcast to broadcast", "expect dropped: too short"],
        "3: expected a reason: shorter than 60; longer than 4,083; source has the group bit;",
    ),
    "unknown refusal": (["take at 5", "expect refused: bad port"], "3: expected a refusal: a lent memory has no length listed,"),
    "take expected behind a frame": (
        ["frame at 0: from broadcast to broadcast", "expect 60 bytes from queue 0"],
        "3: expected after a frame 'refused:', or one of queued, dropped, found '60'",
    ),
    "frame expected behind a take": (
        ["take at 0", "expect queued at 1"],
        "3: expected after a take 'refused:', 'empty', or a length in bytes, found 'queued'",
    ),
    "frame expected behind a setting": (["clear vlan 1", "expect queued at 1"], "3: expected 'done', found 'queued'"),
    "queued at a port above 4": (
        ["frame at 0: from broadcast to broadcast", "expect queued at 1 5"],
        "3: expected a port, a number 0 to 4, found '5'",
    ),
    "taken from a queue above 3": (
        ["take at 0", "expect 60 bytes from queue 4"],
        "3: expected a queue, a number 0 to 3, found '4'",
    ),
    "taken shorter than 60": (
        ["take at 0", "expect 59 bytes from queue 0"],
        "3: expected a length, a number 60 to 4091, found '59'",
    ),
    "removed without a number": (
        ["age", "expect entries removed"],
        "3: expected a number of entries, a number 0 to 4112, found 'entries'",
    ),
    "words behind an expectation": (["take at 0", "expect empty now"], "3: expected the end of the line, found 'now'"),
    "value missing": (["counter sent at 0", "expect 3"], "3: expected 'value', found '3'"),
}

TITLES = {
    "no title": ("age\n", "test.lesson:1: expected 'lesson', found 'age'"),
    "title behind notes": ("# a note\n\n> words\n", "test.lesson:3: expected 'lesson', found '>'"),
    "empty title": ("lesson:\n", "test.lesson:1: expected a title, found the end of the line"),
    "empty file": ("", "test.lesson: expected 'lesson: TITLE', found an empty file"),
    "notes alone": ("# a note\n", "test.lesson: expected 'lesson: TITLE', found the end of the file"),
}


@support.for_each(BAD)
class BadLine(unittest.TestCase):
    def check(self, case):
        lines, expected = case
        with self.assertRaises(LessonError) as raised:
            support.lesson(*lines)
        said = str(raised.exception)
        self.assertEqual(said[: len("test.lesson:" + expected)], "test.lesson:" + expected)
        self.assertLess(len(said), 700)


@support.for_each(TITLES)
class BadTitle(unittest.TestCase):
    def check(self, case):
        text, expected = case
        with self.assertRaises(LessonError) as raised:
            support.read_lesson("test.lesson", text)
        self.assertEqual(str(raised.exception), expected)
