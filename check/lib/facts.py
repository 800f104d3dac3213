"""facts: facts, marks and bundles as bytes of docs/FORMATS.md, and the handles of tokens.

They are made here, and not by a server, so that a million families can be pushed to one.
"""
import base64
import hashlib
import itertools
import struct
import time

LIFE, FAMILY = 86_400, 2_592_000
CODE, ACCESS, REFRESH = 1, 2, 3
SCOPE, REDIRECT = b"read write", b"https://app.example/callback"
CLIENT_ADDED, TOKEN_REVOKED, SUBJECT_OUT, ACCESS_REFRESHED = 1, 8, 10, 12  # kinds of facts
LIMITED_ADDED, SECRET_SET = 13, 15
# Of each kind in whose facts an operator may be named: the number of those with one.
WITH_OPERATOR = {1: 16, 13: 17, 2: 18, 3: 19, 4: 20, 8: 21, 10: 22, 15: 23}
KEEPING = 3  # the client kind of a client that keeps its refresh token
MARKED = {b"OTB3", b"OTB5", b"OTB6"}  # the versions with marks, and so with a horizon
MARK = 10  # the length of the mark of a skipped fact, its dot
RUN, RUN_BYTES = 14, 19  # where a fact has its kind, the number of a run; the length of a run
HORIZON = 1000  # a moment that is over
ELSEWHERE = 60000  # a region number that no site comes to
CURSOR, EMPTY_VECTOR = bytes(10), b"OTV1\0\0"
DOT = struct.Struct(">HQ")


def text(words):
    return struct.pack(">H", len(words)) + words


def dot(pair):
    return DOT.pack(*pair)


def read_dot(name):
    """The dot that the id of a client or a consent names, such as c1-1."""
    region, serial = name[1:].split("-")
    return int(region), int(serial)


def token(kind, at):
    return struct.pack(">BB", 1, kind) + dot(at) + bytes(24)


def handle(kind, at):
    """What a client has of the token that the fact at this dot minted."""
    return base64.urlsafe_b64encode(token(kind, at)).decode()


def digest(kind, at):
    return hashlib.sha256(token(kind, at)).digest()


def client(region, serial, scope=b"read"):
    """A public client, which must stay."""
    return dot((region, serial)) + b"\1\0" + text(scope) + b"\1" + text(b"https://a.test/")


def limited_client(region, serial):
    """A public client with lives of its own."""
    fields = client(region, serial)[DOT.size + 1:]
    return (dot((region, serial)) + bytes((LIMITED_ADDED,)) + fields
            + struct.pack(">QQQ", 600, 3600, 604800))


def clients(region, *serials):
    return [client(region, it) for it in serials]


def retirement(at, of):
    return dot(at) + b"\2" + dot(of)


def secret_set(at, of, turn, secret, moment=1000):
    """The change of the secret of the client at a dot, at this turn."""
    return (dot(at) + bytes((SECRET_SET,)) + dot(of) + struct.pack(">Q", turn)
            + hashlib.sha256(secret).digest() + struct.pack(">Q", moment))


def consent(at, of, subject, scope=b"read"):
    """A consent of a subject to the client at a dot."""
    return dot(at) + b"\3" + dot(of) + text(subject) + text(scope)


def withdrawal(at, of):
    return dot(at) + b"\4" + dot(of)


def revocation(at, kind, of, client):
    """The revocation of the token of this kind that the fact at a dot minted, by its client."""
    return (dot(at) + bytes((TOKEN_REVOKED,)) + dot(of) + bytes((kind,)) + digest(kind, of)
            + dot(client))


def sign_out(at, subject, moment=1000):
    return dot(at) + bytes((SUBJECT_OUT,)) + text(subject) + struct.pack(">Q", moment)


def administered(fact, operator, moment=1000):
    """The fact with an operator, from the fact without one."""
    kind = bytes((WITH_OPERATOR[fact[MARK]],))
    return fact[:MARK] + kind + fact[MARK + 1:] + text(operator) + struct.pack(">Q", moment)


def each_administered(region, operator=b"root"):
    """A fact of each kind in which an operator may be named, with this one."""
    at = [(region, serial) for serial in range(9)]
    return [administered(it, operator) for it in (
        client(*at[1]), limited_client(*at[2]), retirement(at[3], at[2]),
        consent(at[4], at[1], b"ann"), withdrawal(at[5], at[4]),
        revocation(at[6], REFRESH, (ELSEWHERE, 1), at[1]), sign_out(at[7], b"ann"),
        secret_set(at[8], at[1], 1, b"n3w"))]


def mark(region, serial):
    return dot((region, serial))


def run(region, first, last):
    """A piece of a bundle with runs: the marks of serials from the first to the last."""
    return dot((region, first)) + bytes((RUN,)) + struct.pack(">Q", last)


def code(at, end, subject):
    """A code of a family that ends then. Its client and its consent needn't be known."""
    times = struct.pack(">QQQ", 1000, 1060, end)
    return (dot(at) + b"\5" + dot((ELSEWHERE, 1)) + dot((ELSEWHERE, 2)) + bytes(32) + times
            + text(subject) + text(b"read") + text(REDIRECT) + b"\0\0")


def redemption(at, of, end, moment=1010):
    token = bytes(32) + struct.pack(">Q", end) + text(b"read")
    return dot(at) + b"\6" + dot(of) + struct.pack(">Q", moment) + token + token


class Maker:
    """Makes facts of a region number, for a client and a consent that a server may have.

    Serials begin with 1 and have no gap, since a vector covers facts up to the first one that is
    missing. Client and consent are facts of another region. Each login has its own subject, unless
    one is given. Only tokens of the consent's subject are active.
    """

    def __init__(self, region, client="c1-1", consent="g1-2", subject=None):
        self.region, self.client, self.consent = region, read_dot(client), read_dot(consent)
        self.serials, self.now, self.subject = itertools.count(1), int(time.time()), subject

    def new_dot(self):
        return self.region, next(self.serials)

    def access_token(self, at):
        return digest(ACCESS, at) + struct.pack(">Q", self.now + LIFE) + text(SCOPE)

    def tokens(self, at):
        refresh = digest(REFRESH, at) + struct.pack(">Q", self.now + FAMILY) + text(SCOPE)
        return self.access_token(at) + refresh

    def code(self):
        """A code: its dot, and the fact."""
        at = self.new_dot()
        subject = self.subject or b"subject-%d" % (at[1] // 2)
        times = struct.pack(">QQQ", self.now, self.now + 60, self.now + FAMILY)
        return at, (dot(at) + b"\5" + dot(self.client) + dot(self.consent) + digest(CODE, at)
                    + times + text(subject) + text(SCOPE) + text(REDIRECT) + b"\1\0")

    def redemption(self, code):
        """A redemption of the code at a dot: its own dot, and the fact."""
        at = self.new_dot()
        return at, dot(at) + b"\6" + dot(code) + struct.pack(">Q", self.now) + self.tokens(at)

    def login(self):
        """A code and its redemption: the redemption's dot, and both facts."""
        code, given = self.code()
        redemption, redeemed = self.redemption(code)
        return redemption, [given, redeemed]

    def rotation(self, parent, generation):
        """The rotation of a dot's refresh token: its own dot, and the fact."""
        at = self.new_dot()
        return at, dot(at) + b"\7" + dot(parent) + struct.pack(">HQ", generation, self.now) + (
            self.tokens(at))

    def kept(self, parent):
        """An access token for the refresh token of a dot that is kept: its dot, and the fact."""
        at = self.new_dot()
        return at, dot(at) + bytes((ACCESS_REFRESHED,)) + dot(parent) + (
            struct.pack(">Q", self.now) + self.access_token(at))

    def logins(self, count):
        """The dots of N redemptions, and the facts of N logins."""
        made = [self.login() for _ in range(count)]
        return [at for at, _ in made], [fact for _, both in made for fact in both]

    def chain(self, length):
        """The last dot and the facts of a login that was refreshed N times."""
        at, facts = self.login()
        for generation in range(1, length + 1):
            at, fact = self.rotation(at, generation)
            facts.append(fact)
        return at, facts


def bundle(items, horizon=None):
    """The bundle of items, facts or marks, in the order of their dots."""
    head = version_of(items)
    if head in MARKED:
        head += struct.pack(">Q", HORIZON if horizon is None else horizon)
    return head + struct.pack(">H", len(items)) + b"".join(map(text, items))


def bundle_with_runs(pieces, horizon=HORIZON):
    """The bundle of pieces, of which one must be a run."""
    return (b"OTB6" + struct.pack(">QH", horizon, len(pieces))
            + b"".join(map(text, pieces)))


def version_of(items):
    """The first version that has all of these items."""
    marked = any(len(it) == MARK for it in items)
    kinds = {it[MARK:MARK + 2] for it in items if len(it) > MARK}
    if any(it[0] > SUBJECT_OUT or it == bytes((CLIENT_ADDED, KEEPING)) for it in kinds):
        return b"OTB5" if marked else b"OTB4"
    if marked:
        return b"OTB3"
    return b"OTB2" if any(it[0] == SUBJECT_OUT for it in kinds) else b"OTB1"


def count_at(log, at):
    """Where the number of items is of the bundle that begins at a place of a log."""
    return at + (12 if log[at:at + 4] in MARKED else 4)


def bundles(facts, size=128):
    for at in range(0, len(facts), size):
        yield bundle(facts[at:at + size])


def records(items):
    """A log with a record for each of these facts."""
    return b"".join(bundles(items, 1))


def items_in(piece):
    """A fact or a mark, or the marks of a run."""
    if len(piece) != RUN_BYTES or piece[MARK] != RUN:
        return [piece]
    (region, first), last = DOT.unpack_from(piece), int.from_bytes(piece[MARK + 1:], "big")
    return [dot((region, serial)) for serial in range(first, last + 1)]


def facts_of(log):
    """The items of bundles that are one behind the other."""
    found, at = [], 0
    while at < len(log):
        at = count_at(log, at)
        count, at = int.from_bytes(log[at:at + 2], "big"), at + 2
        for _ in range(count):
            length, at = int.from_bytes(log[at:at + 2], "big"), at + 2
            found += items_in(log[at:at + length])
            at += length
    return found


def marks_in(log):
    return sum(len(it) == MARK for it in facts_of(log))


def end_of_bundle(log, at):
    """Where the bundle ends that begins at a place of a log; past the log, if it is cut."""
    at = count_at(log, at)
    count = int.from_bytes(log[at:at + 2], "big")
    at += 2
    for _ in range(count):
        at += 2 + int.from_bytes(log[at:at + 2], "big")
    return at


def whole_records(log):
    """How many bytes at the front of a log are whole bundles, of any number of facts each."""
    at = 0
    while (end := end_of_bundle(log, at)) <= len(log):
        at = end
    return at
