"""Why an answer is as it is, in words: what the lesson's account knows and the bench program does not show."""

from . import calls
from .account import Ageing, Departure
from .answers import Refused
from .arrivals import Arrival
from .frames import LONGEST, SHORTEST
from .telling import address_words, ports_words, tags_words
from .words import REASONS, STATES, counted, listed, number_of

NO_ROOM = number_of(REASONS, "no room")


class Explaining:
    def __init__(self, account, addresses):
        """`addresses` has the lesson's names for addresses; the first name of an address is told."""
        self.account = account
        self.names = {address: name for name, address in reversed(addresses.items())}

    def words(self, call, answer, worked):
        """Lines that tell why; none if there is nothing to tell. `worked` is None if the account is lost."""
        if worked is None:
            return self.lost(call, answer)
        match worked.why:
            case Arrival() if SHORTEST <= worked.why.frame.length <= LONGEST:
                lines = self.arrival(worked.why)
            case Departure():
                lines = [departure(worked.why)]
            case Ageing() if worked.why.gone:
                lines = [self.ageing(worked.why)]
            case _:
                lines = []
        return [f"worked out: {line}" for line in lines]

    def lost(self, call, answer):
        not_known = f"not known behind the record of line {self.account.lost_at}"
        if isinstance(answer, Refused):
            return []
        if isinstance(call, calls.FrameIn):
            return [f"worked out: {came(call.frame)}; VID, queue, address and why: {not_known}"]
        return [f"tags: {not_known}"] if isinstance(call, calls.Take) and answer.x else []

    # Arrivals --------------------------------------------------------------------------------------------------------

    def arrival(self, arrival):
        if arrival.is_bpdu:
            lines = [f"{came(arrival.frame)}; a BPDU to port 4, queue {arrival.queue}, no tag operation"]
            lines.append("a BPDU is neither looked up nor learned")
        elif arrival.vid is None:
            lines = [came(arrival.frame)]
        else:
            queue = "" if arrival.queue is None else f", queue {arrival.queue}"
            lines = [f"{came(arrival.frame)}; assigned VID {arrival.vid}{queue}"]
        if arrival.decision:
            lines += [self.decision(arrival), self.learning(arrival)]
        fallen = self.fallen(arrival)
        return lines + ([fallen] if fallen else [])

    def decision(self, arrival):
        """Why the candidates are those that they are."""
        choice = arrival.decision
        name = self.name(choice.address)
        members = ports_words(choice.candidates) if choice.candidates else "there are none, so no candidate"
        if choice.is_group:
            return f"{name} is a group address, so all other members: {members}"
        if choice.found is None:
            return f"{name} is unknown in GID {choice.gid}, so flooded to the other members: {members}"
        where = f"{name} is found in GID {choice.gid} at port {choice.found.port} ({sort(choice.found)})"
        if choice.candidates:
            return f"{where}, so that port alone"
        # A found port that is both is told as the arrival port: that can never be otherwise.
        why = "where the frame arrived" if choice.found.port == arrival.port else f"no member of VLAN {arrival.vid}"
        return f"{where}, {why}, so no candidate"

    def learning(self, arrival):
        name, before, now = self.name(arrival.learning.address), arrival.learning.before, arrival.learning.now
        if now is None:
            return f"{name} is not learned: its 20 places are in use"
        if before is None:
            return f"{name} is learned at port {now.port}"
        if before.is_static:
            return f"{name} is static at port {now.port} and stays"
        if before.port != now.port:
            return f"{name} moves from port {before.port} to port {now.port}"
        return f"{name} is known at port {now.port} and marked as used"

    def fallen(self, arrival):
        """The candidates that fell out, and a want of room."""
        states = self.account.ports
        parts = [f"port {port} falls out, it is {STATES[states[port].state]}" for port in arrival.fell_by_state]
        parts += [f"port {port} falls out, its queue {arrival.queue} is off" for port in arrival.fell_by_queue]
        if arrival.outcome == NO_ROOM:
            parts.append(f"it takes {counted(arrival.cells(), 'cell', 'cells')}, free are {arrival.free_cells}")
        return "; ".join(parts)

    # Others ----------------------------------------------------------------------------------------------------------

    def ageing(self, ageing):
        gone = [f"{self.name(entry.address)} in GID {entry.gid}" for entry in ageing.gone]
        return f"gone, as unused since the ageing before: {listed(gone)}"

    def name(self, address):
        return self.names.get(address) or address_words(address)


def departure(known):
    arrival = known.arrival
    vlan = "a BPDU" if arrival.is_bpdu else f"VLAN {arrival.vid}"
    is_unchanged = known.tags == arrival.frame.decoded_tags()
    leaves = "leaves unchanged" if is_unchanged else f"leaves {tags_words(known.tags)}{payload(arrival.frame)}"
    return f"frame of line {arrival.line}, {vlan}; {came(arrival.frame)}; {leaves}"


def came(frame):
    return f"came {tags_words(frame.decoded_tags())}{payload(frame)}"


def payload(frame):
    return ", third tag as payload" if frame.payload_tags() else ""


def sort(entry):
    return "static" if entry.is_static else "learned"
