"""writing: facts, marks, bundles and vectors as bytes, by docs/FORMATS.md alone."""

DIGEST = bytes(range(32))
OTHER = bytes(range(255, 223, -1))
LAST = 253402300799  # the last second of the year 9999


def number(value, size):
    return value.to_bytes(size, "big")


def dot(region, serial):
    return number(region, 2) + number(serial, 8)


def text(value):
    return number(len(value), 2) + value


def moments(*seconds):
    return b"".join(number(second, 8) for second in seconds)


def minted(digest, end, scope=b"read write"):
    return digest + moments(end) + text(scope)


def grants(start, end):
    return moments(start) + minted(DIGEST, end) + minted(OTHER, end)


def fact(kind, fields, serial=1, region=1):
    """A fact, by the number of its kind."""
    return dot(region, serial) + number(kind, 1) + fields


def bundle(items, version=b"OTB1", horizon=b""):
    framed = b"".join(number(len(item), 2) + item for item in items)
    return version + horizon + number(len(items), 2) + framed


def marks(horizon, *dots):
    return bundle([dot(*one) for one in dots], b"OTB3", moments(horizon))


def run(region, first, last):
    """A run of marks, from a serial of a region to a later one."""
    return dot(region, first) + number(14, 1) + number(last, 8)


def vector(*entries):
    return b"OTV1" + number(len(entries), 2) + b"".join(dot(*entry) for entry in entries)


def sign_out(subject, moment, serial=1, region=1):
    return fact(10, text(subject) + moments(moment), serial, region)


def secret_set(turn, moment=1020, of=(1, 1)):
    """The change of a client's secret at this turn, the sixth fact of region 1."""
    return fact(15, dot(*of) + number(turn, 8) + DIGEST + moments(moment), 6)


def by(operator=b"root", moment=1030):
    """The bytes behind the fields of a fact in which an operator is named."""
    return text(operator) + moments(moment)


def client(sort, uris):
    secret = DIGEST if sort else b""
    return number(sort, 1) + secret + text(b"read") + number(len(uris), 1) + b"".join(
        text(uri) for uri in uris)


def code(challenge=b"\0", sent=1, start=1000, subject=b"ann"):
    times = moments(start, start + 60, start + 8000)
    return (dot(1, 1) + dot(1, 2) + DIGEST + times + text(subject) + text(b"read")
            + text(b"https://app.example/cb") + number(sent, 1) + challenge)


URI = b"https://app.example/cb"
S256 = b"\2" + text(b"E9Melhoa2OwvFrEMTJguCHaoeK1t8URWbuGJSstw-cM")
PLAIN = b"\1" + text(b"a" * 43)

# A bundle of each kind, and of what kinds may have.
BUNDLES = {
    "a public client": bundle([fact(1, client(0, [URI]))]),
    "a confidential client": bundle([fact(1, client(1, [URI, b"app:/cb"]))]),
    "a resource server": bundle([fact(1, client(2, [URI] * 8))]),
    "a client that keeps its refresh token": bundle([fact(1, client(3, [URI]))], b"OTB4"),
    "a public client with the least lives": bundle(
        [fact(13, client(0, [URI]) + moments(1, 1, 1))], b"OTB4"),
    "a client that keeps its refresh token, with the greatest lives": bundle(
        [fact(13, client(3, [URI]) + moments(86400, 31536000, 315360000))], b"OTB4"),
    "a client with lives and a mark": bundle(
        [fact(13, client(1, [URI] * 8) + moments(600, 3600, 604800)), dot(1, 3)], b"OTB5",
        moments(1100)),
    "a retired client": bundle([fact(2, dot(1, 1), 9)]),
    "a consent": bundle([fact(3, dot(1, 1) + text(b"ann") + text(b"read write"), 2)]),
    "a withdrawn consent": bundle([fact(4, dot(1, 2), 3)]),
    "a code": bundle([fact(5, code(), 3)]),
    "a code with a challenge": bundle([fact(5, code(S256), 3)]),
    "a code with a plain challenge": bundle([fact(5, code(PLAIN, 0), 3)]),
    "a redeemed code": bundle([fact(6, dot(1, 3) + grants(1100, 5000), 4)]),
    "a rotation": bundle([fact(7, dot(1, 4) + number(10000, 2) + grants(1200, LAST), 5)]),
    "a revoked access token": bundle([fact(8, dot(1, 4) + b"\2" + DIGEST + dot(1, 1), 6)]),
    "a revoked refresh token": bundle([fact(8, dot(1, 4) + b"\3" + OTHER + dot(1, 1), 6)]),
    "a reused code": bundle([fact(9, dot(1, 3) + b"\1", 7)]),
    "a reused refresh token": bundle([fact(9, dot(65535, 2**63 - 1) + b"\3", 7)]),
    "a sign-out": bundle([sign_out(b"ann", 1020, 5)], b"OTB2"),
    "texts with escapes": bundle([sign_out(b'"\\"ann\\!~', 1020, 5)], b"OTB2"),
    "all visible bytes": bundle([sign_out(bytes(range(0x21, 0x7F)), 0, 5)], b"OTB2"),
    "a refreshed access token": bundle(
        [fact(12, dot(1, 4) + moments(1200) + minted(DIGEST, LAST), 5)], b"OTB4"),
    "a refreshed access token and a mark": bundle(
        [dot(1, 3), fact(12, dot(1, 4) + moments(0) + minted(OTHER, 0), 5)], b"OTB5",
        moments(1100)),
    "the first change of a secret": bundle([secret_set(1)], b"OTB4"),
    "the last change of a secret, of the last dots": bundle(
        [secret_set(1000000, LAST, (65535, 2**63 - 1))], b"OTB4"),
    "a change of a secret and a mark": bundle([dot(1, 3), secret_set(2, 0)], b"OTB5",
                                              moments(1100)),
    "a public client by an operator": bundle([fact(16, client(0, [URI]) + by())], b"OTB4"),
    "a client that keeps its refresh token, by an operator of a byte": bundle(
        [fact(16, client(3, [URI]) + by(b"!", 0))], b"OTB4"),
    "a client with lives, by an operator of 128 bytes": bundle(
        [fact(17, client(1, [URI] * 8) + moments(600, 3600, 604800) + by(b"~" * 128, LAST))],
        b"OTB4"),
    "a retired client by an operator": bundle([fact(18, dot(1, 1) + by(), 9)], b"OTB4"),
    "a consent by an operator": bundle(
        [fact(19, dot(1, 1) + text(b"ann") + text(b"read write") + by(), 2)], b"OTB4"),
    "a withdrawn consent by an operator": bundle([fact(20, dot(1, 2) + by(), 3)], b"OTB4"),
    "a refresh token that was revoked by an operator": bundle(
        [fact(21, dot(1, 4) + b"\3" + OTHER + dot(1, 1) + by(), 6)], b"OTB4"),
    "a sign-out by an operator with escapes": bundle(
        [fact(22, text(b"ann") + moments(1020) + by(b'"\\"root\\!~'), 5)], b"OTB4"),
    "a change of a secret by an operator of all visible bytes": bundle(
        [fact(23, dot(1, 1) + number(1, 8) + DIGEST + moments(1020)
              + by(bytes(range(0x21, 0x7F))), 6)], b"OTB4"),
    "a mark, and a sign-out by an operator": bundle(
        [dot(1, 3), fact(22, text(b"ann") + moments(7) + by(), 5)], b"OTB5", moments(1100)),
    "a run of marks, and retired clients, one by an operator": bundle(
        [run(1, 3, 4), fact(18, dot(1, 1) + by(), 9), fact(2, dot(1, 1), 10)], b"OTB6",
        moments(1100)),
    "marks": marks(1100, (1, 3), (1, 4), (2, 1)),
    "a mark and a fact": bundle([dot(1, 3), sign_out(b"ann", 7, 4)], b"OTB3", moments(LAST)),
    "a run of marks": bundle([run(1, 3, 4)], b"OTB6", moments(1100)),
    "runs, marks and facts": bundle(
        [run(1, 3, 5), sign_out(b"ann", 7, 6), dot(1, 7), run(1, 9, 11), dot(2, 12),
         fact(12, dot(1, 4) + moments(0) + minted(OTHER, 0), 14, 2)], b"OTB6", moments(LAST)),
    "the most marks": bundle([run(1, 3, 1026)], b"OTB6", moments(0)),
    "the last marks": bundle(
        [run(1, 2**63 - 2, 2**63 - 1), run(65534, 2**63 - 3, 2**63 - 1)], b"OTB6", moments(7)),
    "no fact": bundle([]),
    "no entry": vector(),
    "a vector": vector((1, 7), (2, 1), (65535, 2**63 - 1)),
}
