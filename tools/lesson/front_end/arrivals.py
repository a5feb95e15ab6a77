"""Frames as they arrive: rules 1 to 13 in their order, and why the ports are those that they are."""

from dataclasses import dataclass

from . import calls
from .frames import BPDU_DESTINATION, LONGEST, SHORTEST, Frame, Header, is_group
from .operations import Operation
from .words import ASSIGNMENTS, REASONS, STATES, number_of

MANAGEMENT_PORT = 4
BPDU_QUEUE = 3
PORTS = range(5)
QUEUED = 0

CELL_BYTES = 80
STORED_WITH_A_FRAME = 8

# A candidate in one of these states stays one.
FORWARDING_STATES = ("Disabled", "Forwarding")


@dataclass
class Arrival:
    """A frame-in as the rules judge it. What they did not come to is None."""

    line: int
    port: int
    frame: Frame
    default: Header
    outcome: int = QUEUED
    is_bpdu: bool = False
    vid: object = None
    vlan: object = None
    decision: object = None
    learning: object = None
    queue: object = None
    fell_by_state: tuple = ()
    fell_by_queue: tuple = ()
    free_cells: object = None
    ports: int = 0
    waits_at: int = 0

    def operation(self):
        """The VLAN's, as it was on arrival; a BPDU to port 4 has none."""
        return Operation() if self.is_bpdu else self.vlan.operation

    def cells(self):
        """ "The least whole number of cells holding n + 8 bytes." """
        return -(-(self.frame.length + STORED_WITH_A_FRAME) // CELL_BYTES)


@dataclass(frozen=True)
class Decision:
    """Where the destination may go: `found` is its entry, None for a group address and for one that is unknown."""

    address: bytes
    gid: int
    is_group: bool
    found: object
    candidates: int


def judge(account, line, call):
    """The arrival of a frame, by the account's settings. Its look-up and its learning are done in the account's table."""
    arrival = Arrival(line, call.port, call.frame, account.ports[call.port].default)
    arrival.outcome = reading(arrival) or between(account, arrival) or queueing(account, arrival)
    if arrival.outcome != QUEUED:
        arrival.ports = 0
    arrival.waits_at = arrival.ports
    return arrival


def between(account, arrival):
    """ "After 3" a BPDU "skips 4 to 11, learning and the departure state"."""
    to_port_4 = arrival.port != MANAGEMENT_PORT and account.handles_bpdus
    arrival.is_bpdu = arrival.frame.destination == BPDU_DESTINATION and to_port_4
    if arrival.is_bpdu:
        arrival.ports, arrival.queue = 1 << MANAGEMENT_PORT, BPDU_QUEUE
        return QUEUED
    return entering(account, arrival) or choosing(account, arrival)


def reading(arrival):
    frame = arrival.frame
    return first_reason(
        ("shorter than 60", frame.length < SHORTEST),
        ("longer than 4,083", frame.length > LONGEST),
        ("source has the group bit", is_group(frame.source)),
    )


def entering(account, arrival):
    port, tags = account.ports[arrival.port], arrival.frame.decoded_tags()
    reason = first_reason(
        ("tag count barred at this port", port.flags >> len(tags) & 1),
        ("port Blocking", STATES[port.state] == "Blocking"),
        ("port Listening", STATES[port.state] == "Listening"),
    )
    if reason:
        return reason
    arrival.vid = assigned_vid(port, tags)
    arrival.vlan = account.vlans.get(arrival.vid, calls.SetVlan(arrival.vid, 0))
    return first_reason(
        ("assigned VID 4095", arrival.vid == 4095),
        ("VID not in the table", arrival.vid not in account.vlans),
        ("arrival port no member", not arrival.vlan.members >> arrival.port & 1),
    )


def choosing(account, arrival):
    """ "The destination is looked up under (GID, address) before the source is learned." """
    arrival.decision = decision(account.table, arrival)
    arrival.learning = account.table.learn(arrival.vlan.gid, arrival.frame.source, arrival.port)
    reason = first_reason(
        ("port Learning", STATES[account.ports[arrival.port].state] == "Learning"),
        ("no candidate port", not arrival.decision.candidates),
    )
    if reason:
        return reason
    candidates = ports_of(arrival.decision.candidates)
    arrival.queue = account.map[queueing_pcp(account.ports[arrival.port], arrival.frame.decoded_tags())]
    arrival.fell_by_state = tuple(
        port for port in candidates if STATES[account.ports[port].state] not in FORWARDING_STATES
    )
    arrival.ports = arrival.decision.candidates & ~mask_of(arrival.fell_by_state)
    return QUEUED


def queueing(account, arrival):
    arrival.fell_by_queue = tuple(
        port for port in ports_of(arrival.ports) if (port, arrival.queue) in account.queues_off
    )
    arrival.ports &= ~mask_of(arrival.fell_by_queue)
    arrival.free_cells = account.free_cells()
    return first_reason(
        ("no port left after state and queue tests", not arrival.ports),
        ("no room", arrival.cells() > arrival.free_cells),
    )


def decision(table, arrival):
    """ "A group address, or one not found, has all members as candidates; one found has its port, if a member. The
    arrival port never is one." """
    address, vlan = arrival.frame.destination, arrival.vlan
    found = None if is_group(address) else table.look_up(vlan.gid, address)
    reached = vlan.members & 1 << found.port if found else vlan.members
    return Decision(address, vlan.gid, is_group(address), found, reached & ~(1 << arrival.port))


def assigned_vid(port, tags):
    source = {"default": (), "outermost": tags[:1], "second": tags[1:2]}[ASSIGNMENTS[port.assignment]]
    # "A missing tag or VID 0 gives the default VID."
    return source[0].header.vid or port.default.vid if source else port.default.vid


def queueing_pcp(port, tags):
    return tags[0].header.pcp if tags else port.default.pcp


def first_reason(*tests):
    """The number of the first reason that holds; QUEUED if none does."""
    return next((number_of(REASONS, words) for words, holds in tests if holds), QUEUED)


def ports_of(mask):
    return [port for port in PORTS if mask >> port & 1]


def mask_of(ports):
    return sum(1 << port for port in ports)
