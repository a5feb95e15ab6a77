"""The account of a lesson: a switch that plays the lesson's calls by the rules, and so knows what to expect of the bench
program and why.

It goes by the rules alone and not by what the bench program answered. It knows nothing any more behind a record that was
done and for which the language has no words.
"""

from collections import Counter
from dataclasses import dataclass

from . import calls
from .answers import Done, Refused
from .arrivals import PORTS, QUEUED, judge, ports_of
from .frames import tags_of
from .refusals import refusal_of
from .table import AddressTable
from .words import COUNTERS, REASONS

ALL_PORTS = 31

# The bench program's switch.
CELLS = 200


@dataclass(frozen=True)
class Worked:
    """The answer that the rules give, and what explains it: an Arrival, a Departure, an Ageing, or None."""

    answer: object
    why: object = None


@dataclass(frozen=True)
class Departure:
    arrival: object
    tags: tuple

    def bytes(self):
        return self.arrival.frame.bytes_with(self.tags)

    def shown_tags(self):
        """The tags that a reader of the bytes meets: a third tag that came is payload, and stays."""
        return tags_of(self.bytes())


@dataclass(frozen=True)
class Ageing:
    gone: list


class Account:
    def __init__(self):
        """As on a fresh switch."""
        self.lost_at = None
        self.ports = {port: calls.SetPort(port) for port in PORTS}
        self.vlans = {1: calls.SetVlan(1, ALL_PORTS)}
        self.map = {pcp: pcp // 2 for pcp in range(8)}
        self.queues_off = set()
        self.handles_bpdus = True
        self.table = AddressTable()
        self.waiting = []
        self.counts = Counter()

    def play(self, line, call, answer):
        """What the rules give for the call; None where the account cannot know. The bench program's answer matters for a
        record without words alone: if it was done, the account is lost."""
        if isinstance(call, calls.AnyRecord):
            if not isinstance(answer, Refused) and self.lost_at is None:
                self.lost_at = line
            return None
        if self.lost_at is not None:
            return None
        refusal = refusal_of(self, call)
        return Worked(Refused(refusal)) if refusal else self.done(line, call)

    def done(self, line, call):
        match call:
            case calls.FrameIn():
                return self.arrived(judge(self, line, call))
            case calls.Take():
                return self.taken(call.port)
            case calls.Drain():
                return Worked(Done(self.drained(call.port)))
            case calls.Age():
                gone = self.table.age()
                return Worked(Done(len(gone)), Ageing(gone))
            case calls.Counter():
                return Worked(Done(self.counts[call.port, COUNTERS[call.number]]))
        self.set(call)
        return Worked(Done())

    def set(self, call):
        match call:
            case calls.SetPort():
                self.ports[call.port] = call
            case calls.SetVlan():
                self.vlans[call.vid] = call
            case calls.ClearVlan():
                del self.vlans[call.vid]
            case calls.SetStatic():
                self.table.set_static(call.gid, call.address, call.port)
            case calls.Remove():
                self.table.remove(call.gid, call.address)
            case calls.Map():
                self.map[call.pcp] = call.queue
            case calls.QueueSwitch():
                (self.queues_off.discard if call.on else self.queues_off.add)((call.port, call.queue))
            case calls.BpduHandling():
                self.handles_bpdus = call.on == 1

    def arrived(self, arrival):
        outcome = "accepted" if arrival.outcome == QUEUED else REASONS[arrival.outcome]
        self.counts.update([(arrival.port, "offered"), (arrival.port, outcome)])
        if arrival.learning and arrival.learning.now is None:
            self.counts[arrival.port, "not learned"] += 1
        self.counts.update((port, "state") for port in arrival.fell_by_state)
        self.counts.update((port, "queue off") for port in arrival.fell_by_queue)
        self.counts.update((port, "queued") for port in ports_of(arrival.ports))
        if arrival.outcome == QUEUED:
            self.waiting.append(arrival)
        return Worked(Done(arrival.outcome, arrival.ports), arrival)

    def taken(self, port):
        """ "The oldest frame of its highest-numbered waiting queue." """
        here = [arrival for arrival in self.waiting if arrival.waits_at >> port & 1]
        if not here:
            return Worked(Done())
        arrival = max(here, key=lambda waiting: waiting.queue)
        self.leave(arrival, port, "sent")
        departure = Departure(arrival, self.leaving_tags(arrival, port))
        return Worked(Done(len(departure.bytes()), arrival.queue), departure)

    def drained(self, port):
        here = [arrival for arrival in self.waiting if arrival.waits_at >> port & 1]
        for arrival in here:
            self.leave(arrival, port, "drained")
        return len(here)

    def leave(self, arrival, port, counter):
        """ "Its cells are free when its last copy is sent or drained." """
        self.counts[port, counter] += 1
        arrival.waits_at &= ~(1 << port)
        self.waiting = [waiting for waiting in self.waiting if waiting.waits_at]

    def free_cells(self):
        return CELLS - sum(arrival.cells() for arrival in self.waiting)

    def leaving_tags(self, arrival, port):
        # "VLAN operation first, departing port's second."
        original = arrival.frame.decoded_tags()
        if arrival.is_bpdu:
            return original
        stack = arrival.operation().carried_out(original, original, arrival.default)
        return self.ports[port].operation.carried_out(stack, original, arrival.default)
