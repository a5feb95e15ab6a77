"""The refusals that the account works out for a call: the lines of docs/RULES.md that hold, the lowest first."""

from . import calls
from .frames import is_group
from .words import ASSIGNMENTS, COUNTERS, OPERATIONS, REFUSALS, SOURCES, STATES, TAG_TYPES, number_of

LAST_PORT = 4
LAST_QUEUE = 3
LAST_VID = 4_094
LAST_PCP = 7
LAST_GID = 15
LAST_MASK = 31
LAST_FLAGS = 7
MOST_VLANS = 16

# "Records of length over 5,000 .. are refused (11, before any other)."
LONGEST_RECORD = 5_000


def refusal_of(account, call):
    """The number of the refusal; None if the call is done."""
    if 2 + len(call.body()) > LONGEST_RECORD:
        return number_of(REFUSALS, "bad record")
    numbers = [number_of(REFUSALS, words) for words, holds in LINES.get(type(call), none)(account, call) if holds]
    return min(numbers, default=None)


def port_line(call):
    return "port above 4", call.port > LAST_PORT


def range_line(*fit):
    return "another value outside its range", not all(fit)


def none(account, call):
    return ()


def port_alone(account, call):
    return (port_line(call),)


def counter(account, call):
    return port_line(call), range_line(call.number in COUNTERS)


def port(account, call):
    fit = call.state < len(STATES), call.assignment < len(ASSIGNMENTS), call.flags <= LAST_FLAGS
    return port_line(call), range_line(*fit, is_vid(call.default.vid), fits(call.default), operation_fits(call.operation))


def vlan(account, call):
    fit = is_vid(call.vid), call.members <= LAST_MASK, call.gid <= LAST_GID, operation_fits(call.operation)
    return range_line(*fit), ("new VLAN, 16 in use", call.vid not in account.vlans and len(account.vlans) == MOST_VLANS)


def clear_vlan(account, call):
    return range_line(is_vid(call.vid)), ("clearing a VLAN not there", call.vid not in account.vlans)


def static(account, call):
    is_new = account.table.place_of(call.gid, call.address) is None
    has_place = account.table.empty_place(call.gid, call.address) is not None
    return (
        port_line(call),
        range_line(call.gid <= LAST_GID),
        ("setting a static address with the group bit", is_group(call.address)),
        ("static address new and all its 20 places in use", is_new and not has_place),
    )


def remove(account, call):
    is_there = account.table.place_of(call.gid, call.address) is not None
    return range_line(call.gid <= LAST_GID), ("removing an address not there", not is_there)


def pcp_map(account, call):
    return (range_line(call.pcp <= LAST_PCP, call.queue <= LAST_QUEUE),)


def queue_switch(account, call):
    return port_line(call), range_line(call.queue <= LAST_QUEUE, call.on <= 1)


def bpdu_handling(account, call):
    return (range_line(call.on <= 1),)


def is_vid(vid):
    return 1 <= vid <= LAST_VID


def fits(header):
    return header.pcp <= LAST_PCP and header.dei <= 1


def operation_fits(operation):
    # "An operation's fields are checked for each kind, none included", and a VID that it gives may be 0.
    sources = operation.vid_source <= len(SOURCES) and operation.pcp_source <= len(SOURCES)
    numbers = operation.kind < len(OPERATIONS) and operation.type < len(TAG_TYPES) and sources
    return numbers and operation.given.vid <= LAST_VID and fits(operation.given)


LINES = {
    calls.FrameIn: port_alone,
    calls.Take: port_alone,
    calls.Counter: counter,
    calls.SetPort: port,
    calls.SetVlan: vlan,
    calls.ClearVlan: clear_vlan,
    calls.SetStatic: static,
    calls.Remove: remove,
    calls.Map: pcp_map,
    calls.QueueSwitch: queue_switch,
    calls.Drain: port_alone,
    calls.BpduHandling: bpdu_handling,
}
