"""Records back into calls: what docs/BENCH.md says of their bytes, read the other way round."""

from . import calls
from .frames import Frame, Header, Tag
from .operations import Operation
from .words import TAG_TYPES

# "Records of length over 5,000 .. are refused and skipped."
LONGEST = 5000
# The kind that the bench program's line shows for a record that ends the run.
NO_KIND = 0
TYPES = [bytes.fromhex(name) for name in TAG_TYPES]


def read_records(stream):
    """A call for each line that the bench program prints. A record that is no call, or a cut one, is an AnyRecord."""
    found = []
    while stream:
        length = int.from_bytes(stream[:2], "little")
        whole, stream = stream[: 2 + length], stream[2 + length :]
        if length < 2 or len(whole) < 2 + length:
            return [*found, calls.AnyRecord(NO_KIND, whole)]
        found.append(read_record(length, int.from_bytes(whole[2:4], "little"), whole[4:]))
    return found


def read_record(length, kind, body):
    sizes, reader = READERS.get(kind, ((), None))
    if length > LONGEST or len(body) not in sizes:
        return calls.AnyRecord(kind, body)
    return reader(body)


def read_frame(bytes_):
    """Of a frame what words tell: addresses, tags and length. Bytes that a short frame has not are 0."""
    filled = bytes_.ljust(14, b"\0")
    tags, at = [], 12
    while bytes_[at : at + 2] in TYPES and at + 4 <= len(bytes_):
        control = number(bytes_[at + 2 : at + 4], "big")
        tags.append(Tag(number(bytes_[at : at + 2], "big"), Header(control & 0xFFF, control >> 13, control >> 12 & 1)))
        at += 4
    return Frame(filled[:6], filled[6:12], tuple(tags), len(bytes_))


def read_operation(body):
    return Operation(*body[:4], Header(number(body[4:6]), body[6], body[7]))


def number(bytes_, order="little"):
    return int.from_bytes(bytes_, order)


# For each kind: the sizes that its body may have, and the call of such a body.
READERS = {
    1: (range(1, LONGEST), lambda body: calls.FrameIn(body[0], read_frame(body[1:]))),
    2: ((1,), lambda body: calls.Take(*body)),
    3: ((0,), lambda body: calls.Age()),
    4: ((2,), lambda body: calls.Counter(*body)),
    5: (
        (16,),
        lambda body: calls.SetPort(
            body[0], body[1], body[2], Header(number(body[3:5]), body[5], body[6]), body[7], read_operation(body[8:])
        ),
    ),
    6: ((12,), lambda body: calls.SetVlan(number(body[:2]), body[2], body[3], read_operation(body[4:]))),
    7: ((2,), lambda body: calls.ClearVlan(number(body))),
    8: ((8,), lambda body: calls.SetStatic(body[0], body[1], body[2:])),
    9: ((7,), lambda body: calls.Remove(body[0], body[1:])),
    10: ((2,), lambda body: calls.Map(*body)),
    11: ((3,), lambda body: calls.QueueSwitch(*body)),
    12: ((1,), lambda body: calls.Drain(*body)),
    13: ((1,), lambda body: calls.BpduHandling(*body)),
}
