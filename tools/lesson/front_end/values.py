"""The values in a statement: numbers, names, tags, tag operations.

Numbers may be as large as their bytes in the record, so that a lesson can show a refusal.
"""

from .frames import Header, Tag
from .operations import GIVEN, Operation
from .words import ASSIGNMENTS, OPERATIONS, SOURCES, STATES, TAG_TYPES

BYTE = 255
TWO_BYTES = 65_535
MASK_BITS = 7


def read_port(phrase):
    return phrase.number("a port", 0, BYTE)


def read_vid(phrase):
    return phrase.number("a VID", 0, TWO_BYTES)


def read_pcp(phrase):
    return phrase.number("a PCP", 0, BYTE)


def read_dei(phrase):
    return phrase.number("a DEI", 0, BYTE)


def read_gid(phrase):
    return phrase.number("a GID", 0, BYTE)


def read_queue(phrase):
    return phrase.number("a queue", 0, BYTE)


def read_state(phrase):
    return phrase.number_or_word("a state", STATES, BYTE)


def read_assignment(phrase):
    return phrase.number_or_word("an assignment", ASSIGNMENTS, BYTE)


def read_switch(phrase):
    return 1 if phrase.choice(("on", "off")) == "on" else 0


def read_members(phrase):
    return 0 if phrase.has("none") else phrase.mask("a port", MASK_BITS)


def read_barred(phrase):
    flags = phrase.mask("a tag count", MASK_BITS)
    phrase.choice(("tags", "tag"))
    return flags


def read_tag_type(phrase):
    names = [name.lower() for name in TAG_TYPES]
    return names.index(phrase.choice(names))


def read_tag(phrase):
    """'8100 vid 20 pcp 5 dei 1', without pcp or dei 0: a tag holds no larger numbers than its bits."""
    tag_type = int(TAG_TYPES[read_tag_type(phrase)], 16)
    phrase.needs("vid")
    vid = phrase.number("a VID", 0, 4095)
    pcp = phrase.number("a PCP", 0, 7) if phrase.has("pcp") else 0
    dei = phrase.number("a DEI", 0, 1) if phrase.has("dei") else 0
    return Tag(tag_type, Header(vid, pcp, dei))


def read_operation(phrase):
    """'pop', or 'push 8100 vid 20 pcp outermost': VID, and PCP with DEI, are given or come from an original tag."""
    kind = OPERATIONS.index(phrase.choice(OPERATIONS))
    if not Operation(kind).makes_a_tag():
        return Operation(kind)
    tag_type = read_tag_type(phrase)
    phrase.needs("vid")
    vid_source, vid = read_source(phrase, "a VID", TWO_BYTES)
    pcp_source, pcp = read_source(phrase, "a PCP", BYTE) if phrase.has("pcp") else (GIVEN, 0)
    dei = read_dei(phrase) if pcp_source == GIVEN and phrase.has("dei") else 0
    return Operation(kind, tag_type, vid_source, pcp_source, Header(vid, pcp, dei))


def read_source(phrase, what, highest):
    if phrase.word() in SOURCES:
        return SOURCES.index(phrase.choice(SOURCES)), 0
    if not phrase.has_number():
        phrase.fails(f"{what}: outermost, second, or a number 0 to {highest}")
    return GIVEN, phrase.number(what, 0, highest)
