"""Expectations: the words behind 'expect', read as the answer that the call before them should give, and as the tags
that a frame should leave with."""

from . import calls
from .answers import Done, Refused
from .values import read_tag
from .words import REASONS, REFUSALS, number_of

LARGEST_COUNTER = 2**32 - 1


def read_expectation(phrase, call):
    """The expected answer of the call, and the expected tags, None if nothing is said of them."""
    if phrase.has("refused"):
        phrase.needs(":")
        return Refused(read_words(phrase, "a refusal", REFUSALS)), None
    answer = EXPECTED.get(type(call), done)(phrase)
    tags = leaving_tags(phrase) if isinstance(call, calls.Take) and answer.x and phrase.has(",") else None
    phrase.needs_end()
    return answer, tags


def read_words(phrase, what, table):
    """The number that stands for the rest of the line."""
    start = phrase.next
    number = number_of(table, phrase.rest())
    if number is None:
        phrase.next = start
        phrase.fails(f"{what}: {'; '.join(table.values())}")
    return number


def frame_outcome(phrase):
    """'queued at 1 4' or 'dropped: no room'"""
    if phrase.choice(("queued", "dropped"), "after a frame 'refused:', or one of") == "queued":
        phrase.needs("at")
        return Done(0, phrase.mask("a port", 4))
    phrase.needs(":")
    return Done(read_words(phrase, "a reason", REASONS), 0)


def taken(phrase):
    """'60 bytes from queue 2' or 'empty'"""
    if phrase.has("empty"):
        return Done(0, 0)
    if not phrase.has_number():
        phrase.fails("after a take 'refused:', 'empty', or a length in bytes")
    length = phrase.number("a length", 60, 4091)
    phrase.needs("bytes", "from", "queue")
    return Done(length, phrase.number("a queue", 0, 3))


def leaving_tags(phrase):
    """'untagged', or 'tag 8100 vid 20 pcp 5, tag 8100 vid 10', outermost first"""
    if phrase.has("untagged"):
        return ()
    tags = []
    while not tags or phrase.has(","):
        if not phrase.has("tag"):
            phrase.fails("'tag'" if tags else "'tag' or 'untagged'")
        tags.append(read_tag(phrase))
    return tuple(tags)


def removed(phrase):
    """'2 entries removed'"""
    number = phrase.number("a number of entries", 0, 4112)
    phrase.choice(("entries", "entry"))
    phrase.needs("removed")
    return Done(number, 0)


def value(phrase):
    """'value 3'"""
    phrase.needs("value")
    return Done(phrase.number("a value", 0, LARGEST_COUNTER), 0)


def drained(phrase):
    """'3 copies drained'"""
    number = phrase.number("a number of copies", 0, LARGEST_COUNTER)
    phrase.choice(("copies", "copy"))
    phrase.needs("drained")
    return Done(number, 0)


def two_numbers(phrase):
    """'ok 0 0': the line of a record that the language has no words for."""
    phrase.needs("ok")
    return Done(phrase.number("a value", 0, LARGEST_COUNTER), phrase.number("a value", 0, LARGEST_COUNTER))


def done(phrase):
    """'done': a setting is made."""
    phrase.needs("done")
    return Done(0, 0)


EXPECTED = {
    calls.FrameIn: frame_outcome,
    calls.Take: taken,
    calls.Age: removed,
    calls.Counter: value,
    calls.Drain: drained,
    calls.AnyRecord: two_numbers,
}
