"""The numbers of docs/RULES.md and their words: reasons, refusals, counters, states, assignments, tag operations."""

REASONS = {
    1: "shorter than 60",
    2: "longer than 4,083",
    3: "source has the group bit",
    4: "tag count barred at this port",
    5: "port Blocking",
    6: "port Listening",
    7: "assigned VID 4095",
    8: "VID not in the table",
    9: "arrival port no member",
    10: "port Learning",
    11: "no candidate port",
    12: "no port left after state and queue tests",
    13: "no room",
}

REFUSALS = {
    1: "a lent memory has no length listed, or not the one that the fresh call got",
    2: "port above 4",
    3: "another value outside its range",
    4: "setting a static address with the group bit",
    5: "take-out buffer under 4,091 bytes",
    6: "new VLAN, 16 in use",
    7: "clearing a VLAN not there",
    8: "static address new and all its 20 places in use",
    9: "removing an address not there",
    10: "memory met on this call's way holds a field out of its range",
    11: "bad record",
}

COUNTERS = {
    0: "offered",
    **REASONS,
    14: "accepted",
    15: "not learned",
    16: "queued",
    17: "state",
    18: "queue off",
    19: "sent",
    20: "drained",
}

STATES = ("Disabled", "Blocking", "Listening", "Learning", "Forwarding")
ASSIGNMENTS = ("default", "outermost", "second")
OPERATIONS = ("none", "pop", "push", "swap", "pop-all")
SOURCES = ("outermost", "second")
TAG_TYPES = ("8100", "88A8")

# A row of more things is cut. No mask has so many ports.
MOST_LISTED = 8


def named(table, number):
    """The words of a number, or the number itself where the rules have none."""
    words = dict(enumerate(table)) if isinstance(table, tuple) else table
    return words.get(number, str(number))


def number_of(table, text):
    """The number whose words these are, whatever their capitals and spaces; None if there is none."""
    sought = " ".join(text.split()).casefold()
    return next((number for number, words in table.items() if words.casefold() == sought), None)


def listed(things, most=MOST_LISTED):
    """Numbers or words in a row: '1', '1 and 4', '1, 2 and 4'; only the first if they are many: '1, 2 and 7 more'."""
    shown = [str(thing) for thing in things]
    *front, last = shown if len(shown) <= most else [*shown[:most], f"{len(shown) - most} more"]
    return f"{', '.join(front)} and {last}" if front else last


def counted(number, one, several):
    """A number of things: '1 entry', '2 entries'."""
    return f"{number} {one if number == 1 else several}"
