"""The account's address table: 1,024 buckets of four places, then sixteen spare places."""

from dataclasses import dataclass, replace

BUCKETS = 1_024
BUCKET_PLACES = 4
FIRST_SPARE = BUCKETS * BUCKET_PLACES
PLACES = FIRST_SPARE + 16


@dataclass(frozen=True)
class Entry:
    gid: int
    address: bytes
    port: int
    is_static: bool = False
    is_marked: bool = True


@dataclass(frozen=True)
class Learning:
    """What came of learning a source: the entry that was there before, and the one that is there now, if any."""

    address: bytes
    before: object
    now: object


class AddressTable:
    def __init__(self):
        self.entries = {}

    def place_of(self, gid, address):
        """The place of the address; None if it is not there."""
        for place in places(gid, address):
            entry = self.entries.get(place)
            if entry and (entry.gid, entry.address) == (gid, address):
                return place
        return None

    def empty_place(self, gid, address):
        return next((place for place in places(gid, address) if place not in self.entries), None)

    def look_up(self, gid, address):
        """The entry of the address, or None. "A hit marks the entry as used." """
        place = self.place_of(gid, address)
        if place is None:
            return None
        self.entries[place] = replace(self.entries[place], is_marked=True)
        return self.entries[place]

    def learn(self, gid, address, port):
        place = self.place_of(gid, address)
        before = self.entries.get(place)
        if place is None:
            place = self.empty_place(gid, address)
        # "A match that is static stays"; "with none, 'not learned' is counted".
        if place is not None and not (before and before.is_static):
            self.entries[place] = Entry(gid, address, port)
        return Learning(address, before, self.entries.get(place))

    def age(self):
        """The entries that went."""
        learned = {place: entry for place, entry in self.entries.items() if not entry.is_static}
        gone = {place: entry for place, entry in learned.items() if not entry.is_marked}
        for place, entry in learned.items():
            if entry.is_marked:
                self.entries[place] = replace(entry, is_marked=False)
            else:
                del self.entries[place]
        return [gone[place] for place in sorted(gone)]

    def set_static(self, gid, address, port):
        """Refusal 8 comes before: there is a place."""
        place = self.place_of(gid, address)
        place = self.empty_place(gid, address) if place is None else place
        self.entries[place] = Entry(gid, address, port, is_static=True)

    def remove(self, gid, address):
        """Refusal 9 comes before: the address is there."""
        del self.entries[self.place_of(gid, address)]


def bucket(gid, address):
    """ "GID x 2^48 + address, cut into 10-bit groups from the low end, all joined by exclusive or." """
    rest, joined = (gid << 48) + int.from_bytes(address, "big"), 0
    while rest:
        joined ^= rest % BUCKETS
        rest //= BUCKETS
    return joined


def places(gid, address):
    """ "The search takes the bucket's four places, then the sixteen spares." """
    first = BUCKET_PLACES * bucket(gid, address)
    return [*range(first, first + BUCKET_PLACES), *range(FIRST_SPARE, PLACES)]
