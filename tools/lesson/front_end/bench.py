"""The bench program: records go to its standard input, its lines come back as answers."""

import subprocess
import sys

from .answers import read_line
from .calls import records
from .quoting import quoted


class BenchError(Exception):
    """A bench program that cannot be run, or whose lines do not fit the records."""


def run(command, calls):
    """One answer for each call; the command is a list of words."""
    if not command:
        raise BenchError("bench program: expected a command")
    name = quoted(" ".join(command))
    try:
        ended = subprocess.run(command, input=records(calls), capture_output=True, check=False)
    except OSError as error:
        raise BenchError(f"bench program {name}: {error.strerror}") from error
    said = ended.stderr.decode("utf-8", "replace")
    if ended.returncode != 0:
        raise BenchError(f"bench program {name}: ended with status {ended.returncode}{last_words(said)}")
    sys.stderr.write(said)
    return read_answers(calls, ended.stdout.decode("utf-8", "replace").splitlines())


def last_words(said):
    """The last line that the program said on standard error, behind a colon."""
    lines = [line for line in said.splitlines() if line.strip()]
    return f": {quoted(lines[-1].strip())}" if lines else ""


def read_answers(calls, lines):
    """The answers of the lines, which must have the records' numbers and kinds."""
    if len(lines) != len(calls):
        raise BenchError(f"bench program: expected {len(calls)} lines, found {len(lines)}")
    found = []
    for number, (call, line) in enumerate(zip(calls, lines), 1):
        read = read_line(line)
        if read is None or read[:2] != (number, call.kind):
            raise BenchError(f"bench program: expected a line '{number} {call.kind} ..', found '{quoted(line)}'")
        found.append(read[2])
    return found
