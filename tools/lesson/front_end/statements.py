"""The statements of the language: each line becomes one call."""

from . import calls
from .frames import SHORTEST, Frame, Header
from .operations import Operation
from .phrase import NUMBER
from .quoting import quoted
from .values import (
    BYTE,
    TWO_BYTES,
    read_assignment,
    read_barred,
    read_dei,
    read_gid,
    read_members,
    read_operation,
    read_pcp,
    read_port,
    read_queue,
    read_state,
    read_switch,
    read_tag,
    read_vid,
)
from .words import COUNTERS, number_of

# A record's length counts its kind too, and of a frame-in the port.
LONGEST_BODY = TWO_BYTES - 2
LONGEST_FRAME = LONGEST_BODY - 1


def read_statement(phrase):
    """The call of a line."""
    call = STATEMENTS[phrase.choice(STATEMENTS, "'>', '#', address, expect, or a statement:")](phrase)
    phrase.needs_end()
    return call


# Frames --------------------------------------------------------------------------------------------------------------


def frame_in(phrase):
    """'frame at 0: from A to B, tag 8100 vid 10, 60 bytes'"""
    phrase.needs("at")
    port = read_port(phrase)
    phrase.needs(":", "from")
    source = phrase.address()
    phrase.needs("to")
    destination = phrase.address()
    tags, length = [], SHORTEST
    while phrase.has(","):
        if phrase.has("tag"):
            tags.append(read_tag(phrase))
        elif phrase.has_number():
            length = phrase.number("a length", 0, LONGEST_FRAME)
            phrase.needs("bytes")
            break
        else:
            phrase.fails("'tag', or a length in bytes")
    return calls.FrameIn(port, Frame(destination, source, tuple(tags), length))


def take(phrase):
    phrase.needs("at")
    return calls.Take(read_port(phrase))


def drain(phrase):
    phrase.needs("at")
    return calls.Drain(read_port(phrase))


# Settings ------------------------------------------------------------------------------------------------------------


PORT_PARTS = {
    "state": read_state,
    "assignment": read_assignment,
    "vid": read_vid,
    "pcp": read_pcp,
    "dei": read_dei,
    "bars": read_barred,
    "operation": read_operation,
}

VLAN_PARTS = {"ports": read_members, "gid": read_gid, "operation": read_operation}


def set_port(phrase):
    """'port 0: state forwarding, assignment second, vid 10, pcp 3, dei 0, bars 0 2 tags, operation pop'"""
    port = read_port(phrase)
    phrase.needs(":")
    given = phrase.parts(PORT_PARTS)
    fresh = calls.SetPort(port)
    default = Header(*(given.get(name, getattr(fresh.default, name)) for name in ("vid", "pcp", "dei")))
    state, assignment = given.get("state", fresh.state), given.get("assignment", fresh.assignment)
    operation = given.get("operation", fresh.operation)
    return calls.SetPort(port, state, assignment, default, given.get("bars", fresh.flags), operation)


def set_vlan(phrase):
    """'vlan 10: ports 0 1 4, gid 3, operation pop'"""
    vid = read_vid(phrase)
    phrase.needs(":")
    if phrase.word() != "ports":
        phrase.fails("'ports'")
    given = phrase.parts(VLAN_PARTS)
    return calls.SetVlan(vid, given["ports"], given.get("gid", 0), given.get("operation", Operation()))


def clear_vlan(phrase):
    phrase.needs("vlan")
    return calls.ClearVlan(read_vid(phrase))


def set_static(phrase):
    """'static press in gid 1: port 3'"""
    address = phrase.address()
    phrase.needs("in", "gid")
    gid = read_gid(phrase)
    phrase.needs(":", "port")
    return calls.SetStatic(gid, read_port(phrase), address)


def remove(phrase):
    """'remove press in gid 1'"""
    address = phrase.address()
    phrase.needs("in", "gid")
    return calls.Remove(read_gid(phrase), address)


def map_pcp(phrase):
    """'map pcp 5: queue 3'"""
    phrase.needs("pcp")
    pcp = read_pcp(phrase)
    phrase.needs(":", "queue")
    return calls.Map(pcp, read_queue(phrase))


def queue_switch(phrase):
    """'queue 2 at 1: off'"""
    queue = read_queue(phrase)
    phrase.needs("at")
    port = read_port(phrase)
    phrase.needs(":")
    return calls.QueueSwitch(port, queue, read_switch(phrase))


def bpdu_handling(phrase):
    """'bpdu handling: off'"""
    phrase.needs("handling", ":")
    return calls.BpduHandling(read_switch(phrase))


# Others --------------------------------------------------------------------------------------------------------------


def age(phrase):
    return calls.Age()


def counter(phrase):
    """'counter VID not in the table at 0'; a number shows what is refused."""
    start = phrase.next
    name = phrase.text_up_to_last("at")
    number = int(name) if NUMBER.fullmatch(name) and int(name) <= BYTE else number_of(COUNTERS, name)
    if number is None:
        phrase.next = start
        phrase.fails(f"a counter: {'; '.join(COUNTERS.values())}; or a number 0 to {BYTE}")
    return calls.Counter(read_port(phrase), number)


def any_record(phrase):
    """'record kind 99: 00 FF'"""
    phrase.needs("kind")
    kind = phrase.number("a kind", 0, TWO_BYTES)
    phrase.needs(":")
    text = phrase.rest()
    try:
        body = bytes.fromhex(text)
    except ValueError:
        phrase.fails(f"bytes such as 00 FF behind the colon, not '{quoted(text)}'")
    if len(body) > LONGEST_BODY:
        phrase.fails(f"at most {LONGEST_BODY} bytes, not {len(body)}")
    return calls.AnyRecord(kind, body)


STATEMENTS = {
    "port": set_port,
    "vlan": set_vlan,
    "clear": clear_vlan,
    "static": set_static,
    "remove": remove,
    "map": map_pcp,
    "queue": queue_switch,
    "bpdu": bpdu_handling,
    "frame": frame_in,
    "take": take,
    "drain": drain,
    "age": age,
    "counter": counter,
    "record": any_record,
}
