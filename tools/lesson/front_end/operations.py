"""Tag operations: their bytes in a record, their words, and what they make of a stack of tags."""

from dataclasses import dataclass

from .frames import Header, Tag
from .words import OPERATIONS, SOURCES, TAG_TYPES

# The number of the source 'given', behind those of SOURCES.
GIVEN = len(SOURCES)


@dataclass(frozen=True)
class Operation:
    """The rules' numbers: kind, type and sources; then the fields that the operation gives."""

    kind: int = 0
    type: int = 0
    vid_source: int = 0
    pcp_source: int = 0
    given: Header = Header(0)

    def bytes(self):
        numbers = bytes([self.kind, self.type, self.vid_source, self.pcp_source])
        return numbers + self.given.vid.to_bytes(2, "little") + bytes([self.given.pcp, self.given.dei])

    def makes_a_tag(self):
        return OPERATIONS[self.kind] in ("push", "swap")

    def carried_out(self, stack, original, default):
        """The stack after the operation, with the tags that the frame came with and the arrival port's default header:
        new fields never come from an earlier operation."""
        name = OPERATIONS[self.kind]
        if name == "pop-all":
            return ()
        kept = stack[1:] if name in ("pop", "swap") else stack
        return (self.new_tag(original, default), *kept) if self.makes_a_tag() else kept

    def new_tag(self, original, default):
        numbered = self.header_from(self.vid_source, original, default)
        prioritised = self.header_from(self.pcp_source, original, default)
        return Tag(int(TAG_TYPES[self.type], 16), Header(numbered.vid, prioritised.pcp, prioritised.dei))

    def header_from(self, source, original, default):
        # "A missing original tag gives the arrival port's default header."
        if source == GIVEN:
            return self.given
        return original[source].header if source < len(original) else default

    def __str__(self):
        name = OPERATIONS[self.kind]
        if not self.makes_a_tag():
            return name
        vid = self.given.vid if self.vid_source == GIVEN else SOURCES[self.vid_source]
        pcp = f"{self.given.pcp} DEI {self.given.dei}" if self.pcp_source == GIVEN else SOURCES[self.pcp_source]
        return f"{name} {TAG_TYPES[self.type]} VID {vid} PCP {pcp}"
