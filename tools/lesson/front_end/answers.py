"""What a call answers: a line of the bench program, without its number and kind."""

import re
from dataclasses import dataclass, field

NUMBER = "[0-9]{1,10}"
LINE = re.compile(
    rf"(?P<number>{NUMBER}) (?P<kind>{NUMBER}) "
    rf"(?:ok (?P<x>{NUMBER}) (?P<y>{NUMBER})(?: (?P<written>(?:[0-9a-fA-F]{{2}})+))?|refused (?P<refusal>{NUMBER}))"
)
TAKE = 2


@dataclass(frozen=True)
class Done:
    """`written` has the bytes of a take, if the bench program shows them; the answer is the same without."""

    x: int = 0
    y: int = 0
    written: object = field(default=None, compare=False)

    def __str__(self):
        return f"ok {self.x} {self.y}"


@dataclass(frozen=True)
class Refused:
    number: int

    def __str__(self):
        return f"refused {self.number}"


def read_line(line):
    """Record number, kind and answer of a line; None if it is no such line."""
    found = LINE.fullmatch(line)
    if not found:
        return None
    number, kind = int(found["number"]), int(found["kind"])
    if found["refusal"] is not None:
        return number, kind, Refused(int(found["refusal"]))
    written = bytes.fromhex(found["written"]) if found["written"] else None
    if written is not None and (kind, len(written)) != (TAKE, int(found["x"])):
        return None
    return number, kind, Done(int(found["x"]), int(found["y"]), written)
