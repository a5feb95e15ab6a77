"""Frames and their tags: what a lesson's frame holds, and its bytes without FCS."""

from dataclasses import dataclass

from .words import TAG_TYPES

BROADCAST = bytes.fromhex("FFFFFFFFFFFF")
BPDU_DESTINATION = bytes.fromhex("0180C2000000")

# "A third tag is payload."
DECODED_TAGS = 2

# Tags stand directly behind destination and source.
TAGS_AT = 12
TAG_BYTES = 4
TYPES = tuple(int(name, 16) for name in TAG_TYPES)

# The type behind the tags: one that is set aside for experiments, so no tag type.
PAYLOAD_TYPE = bytes.fromhex("88B5")

SHORTEST = 60
LONGEST = 4_083


@dataclass(frozen=True)
class Header:
    """A tag's fields but for its type; also a port's default header."""

    vid: int
    pcp: int = 0
    dei: int = 0


@dataclass(frozen=True)
class Tag:
    type: int
    header: Header

    def bytes(self):
        """Type, then PCP (3 bits), DEI (1), VID (12), high byte first."""
        control = self.header.pcp << 13 | self.header.dei << 12 | self.header.vid
        return self.type.to_bytes(2, "big") + control.to_bytes(2, "big")

    def __str__(self):
        return f"{self.type:04X} VID {self.header.vid} PCP {self.header.pcp} DEI {self.header.dei}"


@dataclass(frozen=True)
class Frame:
    destination: bytes
    source: bytes
    tags: tuple = ()
    length: int = SHORTEST

    def bytes(self):
        """Destination, source, the tags, outermost first, and a payload of zeros, cut to the length."""
        written = self.destination + self.source + b"".join(tag.bytes() for tag in self.tags) + PAYLOAD_TYPE
        return written[: self.length].ljust(self.length, b"\0")

    def decoded_tags(self):
        return self.tags[:DECODED_TAGS]

    def payload_tags(self):
        return self.tags[DECODED_TAGS:]

    def bytes_with(self, tags):
        """The bytes with these tags for the decoded ones. "A result under 60 bytes is filled with zeros to 60." """
        rest = self.bytes()[TAGS_AT + TAG_BYTES * len(self.decoded_tags()) :]
        written = self.destination + self.source + b"".join(tag.bytes() for tag in tags) + rest
        return written.ljust(SHORTEST, b"\0")


def is_group(address):
    """The group bit is bit 0 of an address's first byte."""
    return address[0] & 1 == 1


def tags_of(written):
    """All tags in a row behind the source."""
    tags, at = [], TAGS_AT
    while at + TAG_BYTES <= len(written) and int.from_bytes(written[at : at + 2], "big") in TYPES:
        control = int.from_bytes(written[at + 2 : at + TAG_BYTES], "big")
        header = Header(control & 0xFFF, control >> 13, control >> 12 & 1)
        tags.append(Tag(int.from_bytes(written[at : at + 2], "big"), header))
        at += TAG_BYTES
    return tuple(tags)
