"""Bundles and vectors, by the lengths and dots of docs/FORMATS.md. Bodies of facts aren't read."""
import struct

# bytes before the first item
HEADS = {b"OTB1": 6, b"OTB2": 6, b"OTB3": 14, b"OTB4": 6, b"OTB5": 14, b"OTB6": 14}
MARKED = {b"OTB3", b"OTB5", b"OTB6"}  # the versions with marks, and so with a horizon
ITEM = struct.Struct(">HHQ")  # an item's length and its dot
RUN = struct.Struct(">HHQBQ")  # a run's length, its first dot, RUN_KIND, and its last serial
RUN_KIND = 14  # where a fact has its kind
DOT = struct.Struct(">HQ")
HORIZON = struct.Struct(">Q")
CLIENT_ADDED, SIGN_OUT = 1, 10  # kinds of facts; OTB4 and later have those above 10
KEEPING = 3  # the client kind of a client that keeps its refresh token
MAX_ITEMS, MIN_BYTES, MAX_BYTES = 128, 10, 8192
MAX_RUN_ITEMS = 1024  # of a bundle with runs, whose pieces are at most MAX_ITEMS


class NoBundle(Exception):
    """Bytes that don't begin a bundle, or are no vector; of a file with the place of the first."""

    def __init__(self, message, at=0):
        super().__init__(message)
        self.at = at


def no_bundle(at):
    return NoBundle("no bundle at byte %d" % at, at)


class Held:
    """The dots that are held: of each region the serial up to which all are, and those above.

    `horizon` is the latest of the bundles that were read.
    """

    def __init__(self):
        self.fronts, self.above, self.horizon = {}, {}, 0

    def add(self, region, serial):
        front = self.fronts.setdefault(region, 0)
        if serial == front + 1:
            self.fronts[region] = serial
            if region in self.above:
                self.close(region)
        elif serial > front:
            self.above.setdefault(region, set()).add(serial)

    def close(self, region):
        """Moves the front over serials above it that have no gap any more."""
        above, front = self.above[region], self.fronts[region]
        while front + 1 in above:
            front += 1
            above.remove(front)
        self.fronts[region] = front

    def regions(self):
        """The numbers that a dot has."""
        return self.fronts.keys()

    def vector(self):
        entries = sorted((region, front) for region, front in self.fronts.items() if front)
        return (b"OTV1" + struct.pack(">H", len(entries))
                + b"".join(DOT.pack(*entry) for entry in entries))


def bundle_at(data, at):
    """The end of the bundle at a place, and the dots of its items; None if the data ends first."""
    size = HEADS.get(bytes(data[at:at + 4]))
    if not size and len(data) - at >= 6:
        raise no_bundle(at)
    if not size or len(data) - at < size:
        return None
    (count,) = struct.unpack_from(">H", data, at + size - 2)
    end, dots = at + size, []
    if count > MAX_ITEMS:
        raise no_bundle(at)
    for _ in range(count):
        if len(data) - end < ITEM.size:
            return None
        length, region, serial = ITEM.unpack_from(data, end)
        if not MIN_BYTES <= length <= MAX_BYTES:
            raise no_bundle(at)
        last = last_serial(data, end)
        if last is None:
            return None
        end += 2 + length
        if not 0 <= last - serial < MAX_RUN_ITEMS - len(dots):
            raise no_bundle(at)
        dots += ((region, one) for one in range(serial, last + 1))
    return (end, dots) if end <= len(data) else None


def is_run(data, at):
    """Whether the piece at a place is a run of marks."""
    return (data[at:at + 2] == struct.pack(">H", RUN.size - 2)
            and data[at + ITEM.size:at + ITEM.size + 1] == bytes((RUN_KIND,)))


def last_serial(data, at):
    """The last serial of the piece at a place; None if the data ends before it does."""
    if not is_run(data, at):
        return ITEM.unpack_from(data, at)[2]
    return RUN.unpack_from(data, at)[4] if len(data) - at >= RUN.size else None


def whole_bytes(data, held):
    """How many bytes the whole bundles at the front take. Adds their dots to those held."""
    at = 0
    while found := bundle_at(data, at):
        held.horizon = max(held.horizon, horizon_of(data, at))
        at, dots = found
        for region, serial in dots:
            held.add(region, serial)
    return at


def page_dots(page):
    """The dots of a reply that must be one bundle."""
    found = bundle_at(page, 0)
    if not found or found[0] != len(page):
        raise NoBundle("a page is no bundle")
    return found[1]


def is_full(page, dots):
    """Whether a page with these dots may be followed by another."""
    (pieces,) = struct.unpack_from(">H", page, HEADS[bytes(page[:4])] - 2)
    return pieces == MAX_ITEMS or len(dots) == MAX_RUN_ITEMS


def horizon_of(data, at=0):
    """The horizon of the bundle at a place, if it has marks; of any other bundle 0."""
    return HORIZON.unpack_from(data, at + 4)[0] if data[at:at + 4] in MARKED else 0


def facts_alone(page):
    """The bundle of the facts of a bundle, without its marks and its horizon."""
    at, facts = HEADS[bytes(page[:4])], []
    while at < len(page):
        (length,) = struct.unpack_from(">H", page, at)
        if length > DOT.size and not is_run(page, at):
            facts.append(page[at:at + 2 + length])
        at += 2 + length
    return b"".join([version_of(facts), struct.pack(">H", len(facts)), *facts])


def version_of(facts):
    """The version of a bundle of these facts, which are behind their lengths."""
    kinds = {bytes(it[2 + DOT.size:4 + DOT.size]) for it in facts}
    if any(it[0] > SIGN_OUT or it == bytes((CLIENT_ADDED, KEEPING)) for it in kinds):
        return b"OTB4"
    return b"OTB2" if any(it[0] == SIGN_OUT for it in kinds) else b"OTB1"


def vector_regions(vector):
    """The region numbers of a vector."""
    if vector[:4] != b"OTV1" or len(vector) < 6:
        raise NoBundle("no vector")
    (count,) = struct.unpack_from(">H", vector, 4)
    if len(vector) != 6 + count * DOT.size:
        raise NoBundle("no vector")
    return {DOT.unpack_from(vector, 6 + place * DOT.size)[0] for place in range(count)}
