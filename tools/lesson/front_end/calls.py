"""The calls that a lesson makes, each with its record kind and body as in docs/BENCH.md."""

from dataclasses import dataclass

from .frames import Frame, Header
from .operations import Operation


@dataclass(frozen=True)
class FrameIn:
    kind = 1
    port: int
    frame: Frame

    def body(self):
        return bytes([self.port]) + self.frame.bytes()


@dataclass(frozen=True)
class Take:
    kind = 2
    port: int

    def body(self):
        return bytes([self.port])


@dataclass(frozen=True)
class Age:
    kind = 3

    def body(self):
        return b""


@dataclass(frozen=True)
class Counter:
    kind = 4
    port: int
    number: int

    def body(self):
        return bytes([self.port, self.number])


@dataclass(frozen=True)
class SetPort:
    """What a lesson does not name is as on a fresh switch."""

    kind = 5
    port: int
    state: int = 0
    assignment: int = 1
    default: Header = Header(1)
    flags: int = 0
    operation: Operation = Operation()

    def body(self):
        vid = self.default.vid.to_bytes(2, "little")
        front = bytes([self.port, self.state, self.assignment]) + vid
        return front + bytes([self.default.pcp, self.default.dei, self.flags]) + self.operation.bytes()


@dataclass(frozen=True)
class SetVlan:
    kind = 6
    vid: int
    members: int
    gid: int = 0
    operation: Operation = Operation()

    def body(self):
        return self.vid.to_bytes(2, "little") + bytes([self.members, self.gid]) + self.operation.bytes()


@dataclass(frozen=True)
class ClearVlan:
    kind = 7
    vid: int

    def body(self):
        return self.vid.to_bytes(2, "little")


@dataclass(frozen=True)
class SetStatic:
    kind = 8
    gid: int
    port: int
    address: bytes

    def body(self):
        return bytes([self.gid, self.port]) + self.address


@dataclass(frozen=True)
class Remove:
    kind = 9
    gid: int
    address: bytes

    def body(self):
        return bytes([self.gid]) + self.address


@dataclass(frozen=True)
class Map:
    kind = 10
    pcp: int
    queue: int

    def body(self):
        return bytes([self.pcp, self.queue])


@dataclass(frozen=True)
class QueueSwitch:
    kind = 11
    port: int
    queue: int
    on: int

    def body(self):
        return bytes([self.port, self.queue, self.on])


@dataclass(frozen=True)
class Drain:
    kind = 12
    port: int

    def body(self):
        return bytes([self.port])


@dataclass(frozen=True)
class BpduHandling:
    kind = 13
    on: int

    def body(self):
        return bytes([self.on])


@dataclass(frozen=True)
class AnyRecord:
    """A record as the lesson spells it, for kinds and bodies that the language has no words for."""

    kind: int
    bytes: bytes

    def body(self):
        return self.bytes


def record(call):
    """Length (counting what follows) and kind, little-endian, then the body."""
    body = call.body()
    return (2 + len(body)).to_bytes(2, "little") + call.kind.to_bytes(2, "little") + body


def records(calls):
    return b"".join(record(call) for call in calls)
