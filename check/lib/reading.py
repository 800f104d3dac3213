"""reading: logs, bundles and vectors, read by docs/FORMATS.md alone.

`lines_of` returns the objects of an input that isn't bad, and how many bytes at its end are cut.
`Region` loads such inputs, by the rules for slots of docs/DEFINITIONS.md.
"""
import datetime
import json

KINDS = {1: "client_added", 2: "client_retired", 3: "consent_given", 4: "consent_withdrawn",
         5: "code_issued", 6: "code_redeemed", 7: "refresh_rotated", 8: "token_revoked",
         9: "reuse_seen", 10: "subject_out", 12: "access_refreshed", 13: "client_added",
         15: "secret_set"}
# Of each number of facts in which an operator is named: the number of those without one.
WITH_OPERATOR = {16: 1, 17: 13, 18: 2, 19: 3, 20: 4, 21: 8, 22: 10, 23: 15}
LIMITED = 13  # the kind of a client that is added with lives of its own
CLIENT_KINDS = ["public", "confidential", "resource", "confidential"]
KEEPING = 3  # the client kind of a confidential client that keeps its refresh token
TOKENS = {1: "code", 2: "access_token", 3: "refresh_token"}
MARK = "mark"
MARKED = {b"OTB3", b"OTB5", b"OTB6"}  # the versions with marks, and so with a horizon
RUN = 14  # where a fact has its kind: the number of a run of marks, of OTB6 alone
# The kinds of facts that may be skipped: each mints a token, or is of a reuse or a revocation.
PASSING = {"code_issued", "code_redeemed", "refresh_rotated", "token_revoked", "reuse_seen",
           "access_refreshed"}
EPOCH = datetime.datetime(1970, 1, 1)


class Cut(Exception):
    """The bytes end before the bundle or the vector does."""


class Bytes:
    """Bytes that are taken from the front."""

    def __init__(self, data, at=0):
        self.data, self.at = data, at

    def is_empty(self):
        return self.at == len(self.data)

    def take(self, count):
        if self.at + count > len(self.data):
            raise Cut()
        self.at += count
        return self.data[self.at - count:self.at]

    def number(self, count):
        return int.from_bytes(self.take(count), "big")

    def dot(self):
        return "%d:%d" % (self.number(2), self.number(8))

    def text(self):
        return self.take(self.number(2)).decode("ascii")


def moment(name, seconds):
    """The two members of a moment."""
    when = EPOCH + datetime.timedelta(seconds=seconds)
    return {name: when.isoformat() + "Z", name + "_seconds": seconds}


def minted(item):
    """A minted token."""
    return {"digest": item.take(32).hex(), **moment("expiry", item.number(8)),
            "scope": item.text()}


def token(item):
    return {"token": item.dot(), "token_kind": TOKENS[item.number(1)]}


def client_added(item):
    """Returns the fields of a client, of whichever client kind, without its lives."""
    kind = item.number(1)
    fields = {"client_kind": CLIENT_KINDS[kind]}
    if kind == KEEPING:
        fields["refresh"] = "kept"
    if kind:
        fields["secret_digest"] = item.take(32).hex()
    fields["scope"] = item.text()
    fields["uris"] = [item.text() for _ in range(item.number(1))]
    return fields


def lives(item):
    """The lives of a client."""
    return {name: item.number(8) for name in ("access_life", "refresh_life", "family_life")}


def code_issued(item):
    """Returns the fields of a code. Those of a challenge are there if it has one."""
    fields = {"client": item.dot(), "consent": item.dot(), "digest": item.take(32).hex()}
    for name in ("start", "expiry", "family_end"):
        fields.update(moment(name, item.number(8)))
    fields.update(subject=item.text(), scope=item.text(), uri=item.text())
    fields["uri_sent"] = bool(item.number(1))
    method = item.number(1)
    if method:
        fields["challenge_method"] = "plain" if method == 1 else "S256"
        fields["challenge"] = item.text().encode().hex()
    return fields


def grants(item):
    return {**moment("start", item.number(8)), "access_token": minted(item),
            "refresh_token": minted(item)}


def fields_of(kind, item):
    """The fields of a fact of this kind."""
    readers = {
        "client_added": client_added,
        "client_retired": lambda item: {"client": item.dot()},
        "consent_given": lambda item: {"client": item.dot(), "subject": item.text(),
                                       "scope": item.text()},
        "consent_withdrawn": lambda item: {"consent": item.dot()},
        "code_issued": code_issued,
        "code_redeemed": lambda item: {"code": item.dot(), **grants(item)},
        "refresh_rotated": lambda item: {"parent": item.dot(), "generation": item.number(2),
                                         **grants(item)},
        "token_revoked": lambda item: {**token(item), "digest": item.take(32).hex(),
                                       "client": item.dot()},
        "reuse_seen": token,
        "subject_out": lambda item: {"subject": item.text(),
                                     **moment("moment", item.number(8))},
        "access_refreshed": lambda item: {"parent": item.dot(),
                                          **moment("start", item.number(8)),
                                          "access_token": minted(item)},
        "secret_set": lambda item: {"client": item.dot(), "turn": item.number(8),
                                    "secret_digest": item.take(32).hex(),
                                    **moment("moment", item.number(8))},
    }
    return readers[kind](item)


def operator_of(item):
    """By whom and when a fact was administered."""
    return {"operator": item.text(), **moment("moment", item.number(8))}


def mark_at(dot, horizon):
    """The object of a mark."""
    return {"dot": dot, "kind": MARK, **moment("horizon", horizon)}


def items_of(piece, horizon):
    """The objects of an item of a bundle, or of a run of marks."""
    reader = Bytes(piece)
    dot = reader.dot()
    if reader.is_empty():
        return [mark_at(dot, horizon)]
    number = reader.number(1)
    if number == RUN:
        region, first = map(int, dot.split(":"))
        return [mark_at("%d:%d" % (region, serial), horizon)
                for serial in range(first, reader.number(8) + 1)]
    bare = WITH_OPERATOR.get(number, number)
    kind = KINDS[bare]
    fields = {"dot": dot, "kind": kind, **fields_of(kind, reader)}
    if bare == LIMITED:
        fields.update(lives(reader))
    if bare != number:
        fields["by"] = operator_of(reader)
    return [fields]


def bundle_of(reader):
    """The objects of the bundle at the front."""
    horizon = reader.number(8) if reader.take(4) in MARKED else None
    pieces = [reader.take(reader.number(2)) for _ in range(reader.number(2))]
    return [item for piece in pieces for item in items_of(piece, horizon)]


def vector_of(reader):
    """The objects of the vector at the front."""
    reader.take(4)
    entries = [(reader.number(2), reader.number(8)) for _ in range(reader.number(2))]
    return [{"kind": "vector", "region": region, "serial": serial} for region, serial in entries]


def parts_of(data):
    """Yields of each bundle and vector where it begins, where it ends, and its objects."""
    at = 0
    while at < len(data):
        reader = Bytes(data, at)
        try:
            objects = (vector_of if data[at:at + 4] == b"OTV1" else bundle_of)(reader)
        except Cut:
            return
        yield at, reader.at, objects
        at = reader.at


def lines_of(data):
    """The objects of an input, and the number of bytes at its end that are cut."""
    objects, end = [], 0
    for _, end, more in parts_of(data):
        objects += more
    return objects, len(data) - end


def printed(objects):
    """Objects as lines."""
    lines = (json.dumps(one, separators=(",", ":")) for one in objects)
    return "".join(line + "\n" for line in lines).encode()


class Region:
    """A region: its number, and for each dot that it knows the object of the fact or the mark."""

    def __init__(self, number):
        self.number, self.known = number, {}

    def refuses(self, item):
        """Whether an item has the region's own number, or disagrees with what the region knows."""
        if item["dot"].split(":")[0] == str(self.number):
            return True
        known = self.known.get(item["dot"], item)
        kinds = {known["kind"], item["kind"]}
        return not kinds <= PASSING | {MARK} if MARK in kinds else known != item

    def load(self, data):
        """Takes in the bundles of an input without vectors, up to the first that is refused.

        Returns the offset of that bundle, or None, and the number of bytes that are cut.
        """
        end = 0
        for begin, end, items in parts_of(data):
            if any(self.refuses(item) for item in items):
                return begin, 0
            for item in items:
                if self.known.get(item["dot"], {}).get("kind") != MARK:
                    self.known[item["dot"]] = item
        return None, len(data) - end

    def facts(self):
        """How many facts the region holds."""
        return sum(item["kind"] != MARK for item in self.known.values())
