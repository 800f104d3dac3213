"""plain: a region's vector and pages, by the words of docs/DEFINITIONS.md and docs/FORMATS.md.

`Region` has a dict of what the region knows: the bytes of a fact by its dot, or None for a mark.
Each reply is computed from all dots, without an index. Nothing here is from examples/carry or
check/lib, which read and write bundles too.

- A dot is a pair of numbers.
- An item is a pair of a dot and what is known of the dot.
- A vector is a dict of serials by region number.
- A bundle is a pair of its horizon, or None, and the list of its items.
"""
import itertools

from families import PASSING, may_skip

MAX_ITEMS, MAX_PIECES, MAX_RUN_ITEMS = 128, 128, 1024
KIND, RUN = 10, 14  # where a fact has its kind; the number that a run has there
OLDEST, OLDER, ALL = range(1, 10), range(1, 11), range(1, 24)  # kinds of facts
KEEPS = bytes((1, 3))  # kind and client kind of a ClientAdded that only versions of all kinds have
# Each version of a bundle: its kinds of facts, and whether it has marks and runs.
VERSIONS = {b"OTB1": (OLDEST, False, False), b"OTB2": (OLDER, False, False),
            b"OTB3": (OLDER, True, False), b"OTB4": (ALL, False, False),
            b"OTB5": (ALL, True, False), b"OTB6": (ALL, True, True)}
MALFORMED, OWN_NUMBER, CONFLICT = (
    (status, b'{"error":"%s"}' % name)
    for status, name in ((400, b"malformed"), (409, b"own_number"), (409, b"conflict")))


def number(value, size):
    return value.to_bytes(size, "big")


def dot_bytes(dot):
    return number(dot[0], 2) + number(dot[1], 8)


def vector_bytes(vector):
    return b"OTV1" + number(len(vector), 2) + b"".join(map(dot_bytes, sorted(vector.items())))


def cursor_bytes(after):
    return bytes(10) if after is None else dot_bytes(after)


def piece_bytes(items):
    """The bytes of a fact, of a mark, or of marks that are one run."""
    (first, fact), (last, _) = items[0], items[-1]
    if len(items) > 1:
        return dot_bytes(first) + number(RUN, 1) + number(last[1], 8)
    return dot_bytes(first) if fact is None else fact


class Region:
    """A region: its number, what it knows, and its horizon."""

    max_items, max_pieces, max_run_items = MAX_ITEMS, MAX_PIECES, MAX_RUN_ITEMS

    def __init__(self, own):
        self.own, self.known, self.horizon = own, {}, 0

    # What others are sent.

    def serial_held(self, region):
        """The serial up to which no dot of a region is missing."""
        missing = (serial for serial in itertools.count(1) if (region, serial) not in self.known)
        return next(missing) - 1

    def front(self):
        """The region's vector. A region without an entry has the serial 0."""
        entries = {region: self.serial_held(region) for region in {dot[0] for dot in self.known}}
        return {region: serial for region, serial in entries.items() if serial > 0}

    def vector(self):
        return 200, vector_bytes(self.front())

    def is_covered(self, dot, vector):
        return dot[1] <= vector.get(dot[0], 0)

    def is_above(self, dot, after):
        return after is None or dot > after

    def sort(self, dots):
        """Dots as a bundle has them: by region number, and then by serial."""
        return sorted(dots)

    def beyond(self, vector, after):
        """All items that a vector doesn't cover, above a dot if there is one."""
        return [(dot, self.known[dot]) for dot in self.sort(self.known)
                if not self.is_covered(dot, vector) and self.is_above(dot, after)]

    def is_joined(self, before, item):
        """Whether an item and the one before are marks that follow one another in a region."""
        region, serial = before[0]
        return before[1] is None and item == ((region, serial + 1), None)

    def pieces(self, items):
        """The items as lists: marks that follow one another are in one list."""
        begins = [at for at, item in enumerate(items)
                  if at == 0 or not self.is_joined(items[at - 1], item)]
        return [items[begin:end] for begin, end in zip(begins, begins[1:] + [len(items)])]

    def has_item(self, version, fact):
        """Whether bundles of a version have a fact, or marks if there is no fact."""
        kinds, marks, _ = VERSIONS[version]
        if fact is None:
            return marks
        return fact[KIND] in kinds and (kinds == ALL or fact[KIND:KIND + 2] != KEEPS)

    def version(self, items, is_run):
        """The first version that has all of the items, and runs if there is one."""
        return next(version for version, (_, _, runs) in VERSIONS.items()
                    if (runs or not is_run)
                    and all(self.has_item(version, fact) for _, fact in items))

    def bundle(self, horizon, items, with_runs):
        """The bytes of a bundle. They have the horizon if one of the items is a mark."""
        pieces = self.pieces(items) if with_runs else [[item] for item in items]
        version = self.version(items, len(pieces) < len(items))
        has_mark = any(fact is None for _, fact in items)
        head = version + (number(horizon, 8) if has_mark else b"")
        parts = map(piece_bytes, pieces)
        return head + number(len(pieces), 2) + b"".join(number(len(it), 2) + it for it in parts)

    def page(self, query, vector, after):
        """The reply to a pull. `vector` is None if the body is malformed."""
        if vector is None:
            return MALFORMED
        items, with_runs = self.beyond(vector, after), query == "?runs=1"
        if with_runs:
            pieces = self.pieces(items[:self.max_run_items])[:self.max_pieces]
            items = [item for piece in pieces for item in piece]
        else:
            items = items[:self.max_items]
        return 200, self.bundle(self.horizon, items, with_runs)

    # What changes the region.

    def last_own(self):
        """The greatest serial of the region's own number, or 0."""
        return max((serial for region, serial in self.known if region == self.own), default=0)

    def agrees(self, dot, fact):
        """Whether an item may be taken in beside what is known of its dot."""
        if dot not in self.known:
            return True
        bodies = {fact, self.known[dot]}
        if None in bodies:
            return all(it[KIND] in PASSING for it in bodies - {None})
        return len(bodies) == 1

    def join(self, dot, fact):
        """Takes an item in. A mark stays, and drops the fact of its dot."""
        if dot not in self.known or fact is None:
            self.known[dot] = fact

    def raise_horizon(self, moment):
        self.horizon = max(self.horizon, moment)

    def refusal(self, items):
        """Why a bundle is refused, if it is."""
        last = self.last_own()
        if any(region == self.own and serial > last for (region, serial), _ in items):
            return OWN_NUMBER
        return None if all(self.agrees(*item) for item in items) else CONFLICT

    def take(self, bundle):
        """The reply to a push. `bundle` is None if the bytes spell no bundle."""
        if bundle is None:
            return MALFORMED
        horizon, items = bundle
        refusal = self.refusal(items)
        if refusal:
            return refusal
        new = sum(dot not in self.known for dot, _ in items)
        if horizon is not None:
            self.raise_horizon(horizon)
        for item in items:
            self.join(*item)
        return 200, b'{"took":%d}' % new

    def make(self, fact):
        """Adds a fact that the region makes: returns its serial."""
        serial = self.last_own() + 1
        self.known[self.own, serial] = fact
        return serial

    def may_skip(self, held, dot):
        return may_skip(held, self.horizon, dot)

    def prune(self, moment):
        """Skips the facts that may be skipped: returns how many there were."""
        self.raise_horizon(moment)
        held = {dot: fact for dot, fact in self.known.items() if fact is not None}
        gone = [dot for dot in held if self.may_skip(held, dot)]
        self.known.update(dict.fromkeys(gone))
        return len(gone)

    def start_again(self, own, moment):
        """Becomes a region of another number that loaded all pages, and prunes.

        Pages without a mark have no horizon. Returns the line that is printed then.
        """
        has_mark = None in self.known.values()
        self.own, self.horizon = own, self.horizon if has_mark else 0
        return b"pruned %d" % self.prune(moment)
