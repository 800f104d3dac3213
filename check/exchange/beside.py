"""beside: a served region beside the plain program: both get the same requests."""
from lib.facts import DOT, MARK, MARKED, count_at, items_in
from made import GREATEST
from plain import MAX_PIECES, MAX_RUN_ITEMS, Region, cursor_bytes, vector_bytes

OWN, NUMBERS = 7, (1, 2, 3, 4, 5, 300, 65535)  # the region's first number; others
QUERIES = ("", "?runs=1") * 10 + ("?runs=1&a=b", "?runs=0")
COUNTED = "pushes", "refused", "pulls", "pages", "items", "marks", "runs"


class Differs(Exception):
    """The plain program doesn't know any more what the served region knows."""


def number(data, at, size=2):
    return int.from_bytes(data[at:at + size], "big")


def pieces_of(page):
    """The bytes of each piece of a bundle."""
    at = count_at(page, 0)
    count, at, pieces = number(page, at), at + 2, []
    for _ in range(count):
        begin, at = at + 2, at + 2 + number(page, at)
        pieces.append(page[begin:at])
    return pieces


def unlike(got, wanted):
    """Says where the status and the bytes of a reply differ from those that are wanted."""
    if not isinstance(got, tuple) or got[0] != wanted[0]:
        return "%.99s in the place of %.99s" % (got, wanted)
    both = [it[1] for it in (got, wanted)]
    at = next((at for at, pair in enumerate(zip(*both)) if pair[0] != pair[1]), min(map(len, both)))
    return "%d bytes in the place of %d, and from byte %d on %s in the place of %s" % (
        *map(len, both), at, *(it[at:at + 24].hex() or "none" for it in both))


class Beside:
    """Compares the replies of a server with those of the plain program.

    `trace` has each call of the plain program, with the reply of the server. `top` has the greatest
    serial so far of each region number, without those at the end of the range.
    """

    def __init__(self, dice):
        self.dice, self.region, self.server = dice, Region(OWN), None
        self.trace, self.differences, self.counts = [], [], dict.fromkeys(COUNTED, 0)
        self.top = dict.fromkeys(NUMBERS, 0)

    def add(self, **counts):
        for name, count in counts.items():
            self.counts[name] += count

    def meet(self, got, name, *words):
        """Whether a call of the plain program returns the server's reply; keeps the difference."""
        self.trace.append((name, words, got))
        wanted = getattr(self.region, name)(*words)
        if wanted != got:
            self.differences.append("step %d: %s%.160s: %s" % (
                len(self.trace), name, words, unlike(got, wanted)))
        return wanted == got

    def meet_change(self, got, name, *words):
        """Compares a reply after which both regions must know the same."""
        if not self.meet(got, name, *words):
            raise Differs

    def push_bytes(self, data, given):
        """Pushes bytes, and `given`, the bundle that they spell, or None."""
        got = self.server.ask("/sync/push", data)
        self.add(pushes=1, refused=got[0] != 200)
        self.meet_change(got, "take", given)

    def push(self, items, with_runs, horizon):
        """Pushes items, which rise by their dots. Only marks come with the horizon."""
        data = self.region.bundle(horizon, items, with_runs)
        self.push_bytes(data, (horizon if data[:4] in MARKED else None, items))

    def pull(self, query, vector, after):
        """Compares a page and all that follow it: returns them."""
        pages, is_full = [], True
        self.add(pulls=1)
        while is_full:
            got = self.server.ask("/sync/pull" + query, cursor_bytes(after) + vector_bytes(vector))
            if not self.meet(got, "page", query, vector, after):
                break
            pieces = pieces_of(got[1])
            items = [item for piece in pieces for item in items_in(piece)]
            pages.append(got[1])
            self.add(pages=1, items=len(items), marks=sum(len(it) == MARK for it in items),
                     runs=sum(len(items_in(it)) > 1 for it in pieces))
            is_full = len(pieces) == MAX_PIECES or len(items) == MAX_RUN_ITEMS
            after = DOT.unpack(items[-1][:MARK]) if items else None
        return pages

    def look(self, pulls):
        """Compares the vector, and random pulls."""
        self.meet(self.server.ask("/sync/vector"), "vector")
        for _ in range(pulls):
            self.pull(self.dice.choice(QUERIES), self.some_vector(), self.some_after())

    def some_serial(self, number):
        """A serial of a region number, about as high as those that are pushed."""
        return self.dice.randrange(1, self.top[number] + 5)

    def some_vector(self):
        """A vector: empty, of all but one region number, the region's own, or one near that."""
        kind, vector = self.dice.random(), self.region.front()
        if kind < 0.2:
            return {}
        if kind < 0.4:
            regions = sorted({dot[0] for dot in self.region.known})
            return dict.fromkeys(self.dice.sample(regions, len(regions) - 1), GREATEST)
        for number in self.dice.sample(NUMBERS, self.dice.randrange(4) if kind < 0.9 else 0):
            near = vector.get(number, 0) + self.dice.choice((-1, -1, 1, 1, -20, 20, 1000))
            vector[number] = min(GREATEST, self.dice.choice(
                (near, near, near, self.some_serial(number), 0, GREATEST)))
        return {number: serial for number, serial in vector.items() if serial > 0}

    def some_after(self):
        """A cursor: none, a known dot or a neighbour of one, or any dot."""
        kind, number = self.dice.random(), self.dice.choice(NUMBERS)
        if kind < 0.4 or not self.region.known:
            return None
        if kind < 0.8:
            number, serial = self.dice.choice(list(self.region.known))
            return number, min(max(serial + self.dice.choice((-1, 0, 0, 1)), 1), GREATEST)
        return number, GREATEST if kind > 0.95 else self.some_serial(number)
