"""The account against the model: the answers and bytes that it works out for the model's own streams of records."""

import pathlib
import subprocess
import tempfile
import unittest
from dataclasses import dataclass

import support
from front_end import calls
from front_end.account import Account, Departure
from front_end.answers import Done, read_line
from front_end.frames import Frame, Header, tags_of
from front_end.operations import Operation

SEEDS = 1


@dataclass(frozen=True)
class FrameOfBytes(Frame):
    """A frame with the payload of a stream."""

    written: bytes = b""

    def bytes(self):
        return self.written


def little(two):
    return int.from_bytes(two, "little")


def operation(body):
    return Operation(*body[:4], Header(little(body[4:6]), *body[6:]))


def frame_in(body):
    written = body[1:]
    # A short frame has no addresses; nobody asks for them.
    padded = written.ljust(12, b"\0")
    return calls.FrameIn(body[0], FrameOfBytes(padded[:6], padded[6:12], tags_of(written), len(written), written))


# For each kind the length of its body, None for any from 1, and how it is read.
READ = {
    1: (None, frame_in),
    2: (1, lambda body: calls.Take(*body)),
    3: (0, lambda body: calls.Age()),
    4: (2, lambda body: calls.Counter(*body)),
    5: (
        16,
        lambda body: calls.SetPort(*body[:3], Header(little(body[3:5]), *body[5:7]), body[7], operation(body[8:])),
    ),
    6: (12, lambda body: calls.SetVlan(little(body[:2]), *body[2:4], operation(body[4:]))),
    7: (2, lambda body: calls.ClearVlan(little(body))),
    8: (8, lambda body: calls.SetStatic(body[0], body[1], body[2:])),
    9: (7, lambda body: calls.Remove(body[0], body[1:])),
    10: (2, lambda body: calls.Map(*body)),
    11: (3, lambda body: calls.QueueSwitch(*body)),
    12: (1, lambda body: calls.Drain(*body)),
    13: (1, lambda body: calls.BpduHandling(*body)),
}


def calls_of(stream):
    """The call of each record; None for a bad one."""
    at = 0
    while at < len(stream):
        length = little(stream[at : at + 2])
        record = stream[at + 2 : at + 2 + length]
        if len(stream) - at < 2 or length < 2 or len(record) < length:
            yield None
            return
        size, read = READ.get(little(record[:2]), (-1, None))
        fits = len(record) - 2 == size or size is None and len(record) > 2
        yield read(record[2:]) if fits else None
        at += 2 + length


class AgainstTheModel(unittest.TestCase):
    def test_streams(self):
        with tempfile.TemporaryDirectory() as directory:
            subprocess.run([support.STREAMS, directory, "1", str(SEEDS)], check=True, capture_output=True)
            streams = {path.stem: path.read_bytes() for path in sorted(pathlib.Path(directory).iterdir())}
        kinds, outcomes = set(), set()
        for name, stream in streams.items():
            said = subprocess.run([support.MODEL, "--bytes"], input=stream, capture_output=True, check=True).stdout
            account = Account()
            for call, line in zip(calls_of(stream), said.decode().splitlines(), strict=True):
                number, _, answer = read_line(line)
                if call is None:
                    self.assertEqual(str(answer), "refused 11", f"{name}, record {number}")
                    continue
                worked = account.play(number, call, answer)
                self.assertEqual(worked.answer, answer, f"{name}, record {number}: {call}")
                if isinstance(worked.why, Departure):
                    self.assertEqual(worked.why.bytes(), answer.written, f"{name}, record {number}")
                kinds.add(call.kind)
                if isinstance(call, calls.FrameIn) and isinstance(answer, Done):
                    outcomes.add(answer.x)
        self.assertEqual(kinds, set(READ))
        self.assertEqual(outcomes, set(range(14)))
