"""A call and its answer in words."""

from . import calls
from .answers import Refused
from .words import ASSIGNMENTS, COUNTERS, REASONS, REFUSALS, STATES, counted, listed, named


def answer_words(call, answer):
    """What the bench program's line says."""
    if isinstance(answer, Refused):
        return f"refused: {named(REFUSALS, answer.number)} (refusal {answer.number})"
    match call:
        case calls.FrameIn() if answer.x == 0:
            return f"arrived at port {call.port}, queued at {ports_words(answer.y)}"
        case calls.FrameIn():
            return f"arrived at port {call.port}, dropped: {named(REASONS, answer.x)} (reason {answer.x})"
        case calls.Take() if answer.x == 0:
            return f"port {call.port} is empty"
        case calls.Take():
            return f"port {call.port} sends {answer.x} bytes from queue {answer.y}"
        case calls.Drain():
            return f"{counted(answer.x, 'copy', 'copies')} drained at port {call.port}"
        case calls.Age():
            return f"{counted(answer.x, 'entry', 'entries')} removed"
        case calls.Counter():
            return f"counter '{named(COUNTERS, call.number)}' at port {call.port} has value {answer.x}"
        case calls.AnyRecord():
            return f"record kind {call.kind} is done: {answer.x} {answer.y}"
    return f"done: {setting_words(call)}"


def setting_words(call):
    match call:
        case calls.SetPort():
            default = f"default VID {call.default.vid} PCP {call.default.pcp} DEI {call.default.dei}"
            front = f"port {call.port} {named(STATES, call.state)}, assignment {named(ASSIGNMENTS, call.assignment)}"
            return f"{front}, {default}, {barred_words(call.flags)}, operation {call.operation}"
        case calls.SetVlan():
            return f"VLAN {call.vid} with {ports_words(call.members)}, GID {call.gid}, operation {call.operation}"
        case calls.ClearVlan():
            return f"VLAN {call.vid} cleared"
        case calls.SetStatic():
            return f"{address_words(call.address)} under GID {call.gid} static at port {call.port}"
        case calls.Remove():
            return f"{address_words(call.address)} under GID {call.gid} removed"
        case calls.Map():
            return f"PCP {call.pcp} goes to queue {call.queue}"
        case calls.QueueSwitch():
            return f"queue {call.queue} of port {call.port} {'on' if call.on else 'off'}"
        case calls.BpduHandling():
            return f"BPDU handling {'on' if call.on else 'off'}"
    raise TypeError(f"no words for {call}")


def tags_words(tags):
    if not tags:
        return "untagged"
    return f"with {'tag' if len(tags) == 1 else 'tags'} {listed(tags)}"


def ports_words(mask):
    ports = numbers_of(mask)
    if not ports:
        return "no ports"
    return f"{'port' if len(ports) == 1 else 'ports'} {listed(ports)}"


def barred_words(flags):
    return f"bars tag count {listed(numbers_of(flags))}" if flags else "bars no tag count"


def address_words(address):
    return address.hex(":").upper()


def numbers_of(mask):
    return [number for number in range(8) if mask >> number & 1]
