"""bundles: the bytes that regions exchange, as docs/FORMATS.md has them.

Each reader takes all of its bytes, or raises Malformed, whose text says what is wrong. A Bundle
is checked when it is made: number, lengths, kinds and order of its items. The fields of a fact are
not: the server that takes a fact in checks these.
"""
from __future__ import annotations

import struct
from dataclasses import dataclass
from typing import Iterator, NamedTuple, Optional

MAX_ITEMS = 128
MAX_BYTES = 8192  # of a fact
MARK = 10  # the bytes of a mark: its dot
RUN = 14  # where a fact has its kind: a run of marks
MAX_RUN_ITEMS = 1024  # of a bundle with runs, whose pieces are at most MAX_ITEMS
CLIENT_ADDED, ACCESS_REFRESHED, NEWEST = 1, 12, 23
KINDS = {*range(1, NEWEST + 1)} - {11, RUN}  # from 16 on an operator is named
KEEPING = 3  # the client kind of a client that keeps its refresh token
MAX_SERIAL = 2**63 - 1
MAX_MOMENT = 253_402_300_799
# A version: the newest kind that it has, and whether it has marks, and so a horizon.
VERSIONS = {b"OTB1": (9, False), b"OTB2": (10, False), b"OTB3": (10, True),
            b"OTB4": (NEWEST, False), b"OTB5": (NEWEST, True), b"OTB6": (NEWEST, True)}
RUNS = b"OTB6"  # the version with runs
VECTOR = b"OTV1"
FROM_THE_START = bytes(10)  # the cursor of a first page

_COUNT, _DOT, _HORIZON = struct.Struct(">H"), struct.Struct(">HQ"), struct.Struct(">Q")
_RUN = struct.Struct(">HQBQ")


class Malformed(ValueError):
    """Bytes that are no bundle, vector or pull."""


class Cut(Malformed):
    """Bytes that end before the bundle at their front does."""


class Dot(NamedTuple):
    """The name of a fact. Dots are ordered as their bytes are."""

    region: int
    serial: int

    def __str__(self) -> str:
        return "%d:%d" % self

    def write(self) -> bytes:
        return _DOT.pack(*self)


def read_dot(data: bytes, at: int = 0) -> Dot:
    """The dot at a place of these bytes."""
    dot = Dot(*_DOT.unpack_from(data, at))
    if dot.region == 0 or not 1 <= dot.serial <= MAX_SERIAL:
        raise Malformed("%s is no dot" % (dot,))
    return dot


def _kind_for(item: bytes) -> int:
    """The kind that a version must have for an item; 0 for a mark, and for bytes of no kind."""
    if item[MARK:MARK + 2] == bytes((CLIENT_ADDED, KEEPING)):
        return ACCESS_REFRESHED
    return item[MARK] if len(item) > MARK and item[MARK] in KINDS else 0


def _version(items: tuple[bytes, ...]) -> bytes:
    """The first version that has all of these items."""
    newest = max(map(_kind_for, items), default=0)
    marked = any(len(it) == MARK for it in items)
    return next(version for version, (kinds, marks) in VERSIONS.items()
                if newest <= kinds and (marks or not marked))


def _follows(last: Optional[Dot], dot: Optional[Dot]) -> bool:
    return bool(last and dot) and dot == (last.region, last.serial + 1)


def _pieces(items: tuple[bytes, ...]) -> list[bytes]:
    """The items, with marks that follow one another as runs."""
    pieces: list[bytes] = []
    first = last = None
    for item in items:
        dot = read_dot(item) if len(item) == MARK else None
        if _follows(last, dot):
            pieces[-1] = _RUN.pack(*first, RUN, dot.serial)
        else:
            first = dot
            pieces.append(item)
        last = dot
    return pieces


def items_of(piece: bytes) -> list[bytes]:
    """The marks of a run; any other piece is one item."""
    if len(piece) != _RUN.size or piece[MARK] != RUN:
        return [piece]
    (region, first), last = read_dot(piece), _RUN.unpack(piece)[3]
    if not first < last <= min(MAX_SERIAL, first + MAX_RUN_ITEMS):
        raise Malformed("a run from %d to %d" % (first, last))
    return [_DOT.pack(region, serial) for serial in range(first, last + 1)]


def _expanded(pieces: tuple[bytes, ...]) -> tuple[bytes, ...]:
    """The items of pieces, of which one must be a run."""
    items: list[bytes] = []
    for piece in pieces:
        items += items_of(piece)
    if len(items) > MAX_RUN_ITEMS:
        raise Malformed("%d items, more than %d" % (len(items), MAX_RUN_ITEMS))
    if _pieces(tuple(items)) != list(pieces) or len(items) == len(pieces):
        raise Malformed("marks that follow one another aren't one run")
    return tuple(items)


def has_marks(version: bytes) -> bool:
    """Whether bundles of this version have marks, and so a horizon."""
    return VERSIONS[version][1]


def _check_item(number: int, item: bytes) -> None:
    """Raises Malformed if an item's length, dot or kind is wrong."""
    if not MARK <= len(item) <= MAX_BYTES:
        raise Malformed("item %d has %d bytes, not %d to %d"
                        % (number, len(item), MARK, MAX_BYTES))
    read_dot(item)
    if len(item) > MARK and item[MARK] not in KINDS:
        raise Malformed("item %d is a fact of the kind %d" % (number, item[MARK]))


@dataclass(frozen=True)
class Bundle:
    """Items in the order of their dots: facts, and marks of facts that were skipped.

    `horizon` is the sender's, a moment. It is None exactly if no item is a mark. With `runs`, marks
    that follow one another are written as runs.
    """

    items: tuple[bytes, ...] = ()
    horizon: Optional[int] = None
    runs: bool = False

    def __post_init__(self) -> None:
        """Raises Malformed if a bundle has too many items, or items that don't ascend."""
        if len(self.pieces) > MAX_ITEMS or len(self.items) > MAX_RUN_ITEMS:
            raise Malformed("%d items, more than %d" % (len(self.items), MAX_ITEMS))
        before = FROM_THE_START
        for number, item in enumerate(self.items, 1):
            _check_item(number, item)
            if item[:MARK] <= before:
                raise Malformed("item %d isn't above the one before" % number)
            before = item[:MARK]
        if (self.horizon is None) == has_marks(self.version):
            raise Malformed("a horizon without marks, or marks without a horizon")
        if not 0 <= (self.horizon or 0) <= MAX_MOMENT:
            raise Malformed("the horizon %d is no moment" % self.horizon)

    @property
    def pieces(self) -> list[bytes]:
        """What is written: the items, or the runs of marks among them."""
        return _pieces(self.items) if self.runs else list(self.items)

    @property
    def version(self) -> bytes:
        return RUNS if len(self.pieces) < len(self.items) else _version(self.items)

    @property
    def marks(self) -> int:
        """How many items are marks."""
        return sum(len(it) == MARK for it in self.items)

    @property
    def facts(self) -> int:
        return len(self.items) - self.marks

    @property
    def is_full(self) -> bool:
        """Whether a page of these items may be followed by another."""
        return len(self.pieces) == MAX_ITEMS or len(self.items) == MAX_RUN_ITEMS

    @property
    def cursor(self) -> bytes:
        """The cursor of the page behind this one."""
        return self.items[-1][:MARK] if self.items else FROM_THE_START

    def write(self) -> bytes:
        """Returns the bundle as bytes."""
        head = self.version
        if self.horizon is not None:
            head += _HORIZON.pack(self.horizon)
        pieces = self.pieces
        parts = [head, _COUNT.pack(len(pieces))]
        for piece in pieces:
            parts += _COUNT.pack(len(piece)), piece
        return b"".join(parts)

    @property
    def has_runs(self) -> bool:
        """Whether marks that follow one another are written as runs."""
        return self.version == RUNS

    def _of(self, items: tuple[bytes, ...], runs: bool) -> Bundle:
        """The bundle of some of the items. Marks keep the horizon."""
        return Bundle(items, self.horizon if has_marks(_version(items)) else None, runs)

    def part(self, begin: int, end: int) -> Bundle:
        """The bundle of some of the items. Marks keep the horizon."""
        return self._of(self.items[begin:end], self.runs)

    def facts_alone(self) -> Bundle:
        """The bundle of the facts, without the marks and the horizon."""
        return Bundle(tuple(it for it in self.items if len(it) > MARK))

    def without(self, numbers: set[int]) -> Bundle:
        """The bundle of the items that are under none of these region numbers."""
        return self._of(tuple(it for it in self.items if read_dot(it).region not in numbers),
                        self.runs)

    def plain(self) -> Iterator[Bundle]:
        """Yields bundles without runs that have all the items."""
        for begin in range(0, len(self.items), MAX_ITEMS):
            yield self._of(self.items[begin:begin + MAX_ITEMS], False)

    def halves(self) -> tuple[Bundle, Bundle]:
        middle = len(self.items) // 2
        return self.part(0, middle), self.part(middle, len(self.items))


def _count_at(data: bytes, at: int) -> int:
    """The number of two bytes at a place."""
    if len(data) - at < _COUNT.size:
        raise Cut("it ends within a length, at byte %d" % at)
    return _COUNT.unpack_from(data, at)[0]


def _walk(data: bytes, at: int) -> tuple[Optional[int], tuple[bytes, ...], int]:
    """Horizon, items, and the place behind the bundle at `at`, by the lengths alone."""
    magic, horizon = data[at:at + 4], None
    if len(data) - at < 6:
        raise Cut("%d bytes, fewer than any bundle has" % (len(data) - at))
    if magic not in VERSIONS:
        raise Malformed("it begins with %r, no version of a bundle" % magic)
    at += 4
    if has_marks(magic):
        if len(data) - at < _HORIZON.size + _COUNT.size:
            raise Cut("it ends within the horizon")
        (horizon,) = _HORIZON.unpack_from(data, at)
        at += _HORIZON.size
    count = _count_at(data, at)
    if count > MAX_ITEMS:
        raise Malformed("%d items, more than %d" % (count, MAX_ITEMS))
    items, at = [], at + _COUNT.size
    for number in range(1, count + 1):
        size, at = _count_at(data, at), at + _COUNT.size
        if not MARK <= size <= MAX_BYTES or (size == MARK and not has_marks(magic)):
            raise Malformed("item %d of %r has %d bytes" % (number, magic, size))
        if len(data) - at < size:
            raise Cut("item %d of %d has %d of %d bytes" % (number, count, len(data) - at, size))
        items.append(data[at:at + size])
        at += size
    return horizon, tuple(items), at


def read_front(data: bytes, at: int = 0) -> tuple[Bundle, int]:
    """The bundle that begins at a place of these bytes, and the place behind it."""
    horizon, items, end = _walk(data, at)
    if data[at:at + 4] == RUNS:
        return Bundle(_expanded(items), horizon, True), end
    if _version(items) != data[at:at + 4]:
        raise Malformed("items of %r in a bundle %r" % (_version(items), data[at:at + 4]))
    return Bundle(items, horizon), end


def read_bundle(data: bytes) -> Bundle:
    """The bundle that these bytes are."""
    bundle, end = read_front(data)
    if end < len(data):
        raise Malformed("%d bytes behind its last item" % (len(data) - end))
    return bundle


class Records:
    """Cuts a log, which comes piece by piece, into its bundles."""

    def __init__(self, begin: int = 0) -> None:
        """`begin` is the place in the log of the first byte that will come."""
        self._rest, self._end = b"", begin

    def feed(self, piece: bytes) -> Iterator[tuple[Bundle, int]]:
        """Yields each whole bundle so far, with the place behind it. A cut one is kept."""
        data, at = self._rest + piece, 0
        try:
            while True:
                bundle, behind = read_front(data, at)
                at, self._end = behind, self._end + behind - at
                yield bundle, self._end
        except Cut:
            self._rest = data[at:]


@dataclass(frozen=True)
class Vector:
    """For each region the serial up to which its facts are held, ascending by region."""

    entries: tuple[Dot, ...] = ()

    def __post_init__(self) -> None:
        regions = [it.region for it in self.entries]
        if any(one >= other for one, other in zip(regions, regions[1:])):
            raise Malformed("its regions don't ascend")

    def write(self) -> bytes:
        return (VECTOR + _COUNT.pack(len(self.entries))
                + b"".join(it.write() for it in self.entries))

    def is_within(self, other: Vector) -> bool:
        """Whether the other vector covers all that this one does."""
        serials = dict(other.entries)
        return all(serials.get(region, 0) >= serial for region, serial in self.entries)


def read_vector(data: bytes) -> Vector:
    """The vector that these bytes are."""
    if len(data) < 6 or data[:4] != VECTOR:
        raise Malformed("%d bytes that begin with %r, no vector" % (len(data), data[:4]))
    count = _count_at(data, 4)
    if len(data) != 6 + _DOT.size * count:
        raise Malformed("a vector of %d entries in %d bytes" % (count, len(data)))
    return Vector(tuple(read_dot(data, at) for at in range(6, len(data), _DOT.size)))


def write_pull(cursor: bytes, vector: Vector) -> bytes:
    """The body of a pull. The cursor is a dot's bytes, or FROM_THE_START."""
    return cursor + vector.write()


def read_pull(data: bytes) -> tuple[bytes, Vector]:
    """Cursor and vector of a pull's body."""
    if len(data) < MARK:
        raise Malformed("%d bytes, fewer than a cursor has" % len(data))
    if data[:MARK] != FROM_THE_START:
        read_dot(data)
    return data[:MARK], read_vector(data[MARK:])
