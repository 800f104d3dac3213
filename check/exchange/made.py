"""made: random facts for dots, and bytes that spell no bundle or no pull."""
import struct

from lib import facts
from lib.facts import DOT, REFRESH, dot, text

ENDS = range(1060, 2000, 20)  # moments at which families end, and horizons
SUBJECTS = b"ann", b"bob", b"eve"
GREATEST, LAST_MOMENT = 2**63 - 1, 253402300799
# Kinds of facts of a region number. A few kinds alone get the older versions of bundles.
LASTING = "client", "retirement", "consent", "withdrawal"
PASSING = "code", "code", "redemption", "redemption", "rotation", "revocation", "reuse"
NEWER = "keeping", "limited", "secret", "refreshed", "administered", "ended"
BARE = ("client", "consent", "sign_out"), ("client", "keeping")
PALETTES = LASTING, PASSING, LASTING + PASSING + ("sign_out",), LASTING + PASSING + NEWER


class Facts:
    """Makes facts, one for each dot: `made` has them. `minted` has the dots of codes, redemptions
    and rotations, with the generation of the rotation that may follow; 0 for a code."""

    def __init__(self, dice):
        self.dice, self.made, self.minted = dice, {}, []

    def make(self, at, palette):
        """The fact of a dot. A new one is of a kind of the palette."""
        if at not in self.made:
            self.made[at] = self.one_of(palette, at)
        return self.made[at]

    def one_of(self, palette, at):
        return getattr(self, self.dice.choice(palette))(at)

    def some_dot(self):
        """A low dot, of which a fact may be known."""
        return self.dice.randrange(1, 6), self.dice.randrange(1, 60)

    def some_minted(self, is_code):
        """The dot of a late code, or of another fact that minted a refresh token, and a generation.
        """
        found = [it for it in self.minted[-40:] if (it[1] == 0) == is_code]
        return self.dice.choice(found or [(self.some_dot(), 0 if is_code else 1)])

    def subject(self):
        return self.dice.choice(SUBJECTS)

    def client(self, at):
        return facts.client(*at)

    def keeping(self, at):
        """A confidential client that keeps its refresh token."""
        uris = b"\1" + text(facts.REDIRECT)
        return dot(at) + bytes((facts.CLIENT_ADDED, facts.KEEPING)) + bytes(32) + text(
            facts.SCOPE) + uris

    def limited(self, at):
        return facts.limited_client(*at)

    def retirement(self, at):
        return facts.retirement(at, self.some_dot())

    def consent(self, at):
        return facts.consent(at, self.some_dot(), self.subject())

    def withdrawal(self, at):
        return facts.withdrawal(at, self.some_dot())

    def sign_out(self, at):
        return facts.sign_out(at, self.subject())

    def secret(self, at):
        return facts.secret_set(at, self.some_dot(), self.dice.randrange(1, 5), b"n3w")

    def administered(self, at):
        bare = self.one_of(LASTING + ("limited", "sign_out", "secret"), at)
        return facts.administered(bare, b"root")

    def code(self, at):
        self.minted.append((at, 0))
        return facts.code(at, self.dice.choice(ENDS), self.subject())

    def redemption(self, at):
        self.minted.append((at, 1))
        return facts.redemption(at, self.some_minted(True)[0], ENDS.stop)

    def rotation(self, at):
        parent, generation = self.some_minted(False)
        self.minted.append((at, generation + 1))
        given = facts.redemption(at, parent, ENDS.stop)
        end = facts.MARK + 1 + DOT.size
        return dot(at) + b"\7" + dot(parent) + struct.pack(">H", generation) + given[end:]

    def refreshed(self, at):
        """An access token for a refresh token that is kept."""
        given = bytes(32) + struct.pack(">Q", ENDS.stop) + text(b"read")
        parent = self.some_minted(False)[0]
        return dot(at) + bytes((facts.ACCESS_REFRESHED,)) + dot(parent) + struct.pack(
            ">Q", 1010) + given

    def revocation(self, at):
        of = self.some_minted(False)[0] if self.dice.random() < 0.8 else self.some_dot()
        return facts.revocation(at, REFRESH, of, self.some_dot())

    def ended(self, at):
        return facts.administered(self.revocation(at), b"root")

    def reuse(self, at):
        return dot(at) + b"\x09" + dot(self.some_minted(True)[0]) + b"\1"


def bad_bundles():
    """Yields bytes that are one change away from a bundle each."""
    one, two = facts.client(9, 1), facts.client(9, 2)
    mark, run, more = facts.mark(9, 3), facts.run(9, 3, 4), facts.run(9, 5, 6)
    good, marked, runs = (facts.bundle([one, two]), facts.bundle([one, mark]),
                          facts.bundle_with_runs([one, run]))
    for it in good, marked, runs:
        yield it[:-1]
        yield it + b"\0"
        yield b"OTB7" + it[4:]
    yield b"OTB4" + good[4:]
    yield b"OTB5" + marked[4:]
    yield b"OTB6" + marked[4:]
    yield b"OTB5" + runs[4:]
    yield facts.bundle([two, one])
    yield facts.bundle([one, one])
    yield facts.bundle([facts.client(9, 0)])
    yield facts.bundle([facts.client(0, 1)])
    yield facts.bundle([facts.client(9, GREATEST + 1)])
    yield facts.bundle([one[:facts.MARK] + b"\x0b" + one[facts.MARK + 1:]])
    yield facts.bundle([mark], LAST_MOMENT + 1)
    yield facts.bundle(facts.clients(9, *range(1, 130)))
    yield facts.bundle_with_runs([run, more])
    yield facts.bundle_with_runs([run, facts.mark(9, 5)])
    yield facts.bundle_with_runs([facts.run(9, 4, 4)])
    yield facts.bundle_with_runs([facts.run(9, 4, 3)])
    yield facts.bundle_with_runs([facts.run(9, 1, 1025)])
    yield facts.bundle_with_runs([facts.run(9, 3 * at, 3 * at + 1) for at in range(1, 130)])


def bad_pulls():
    """Yields malformed bodies of pulls."""
    entries = [dot((3, 5)), dot((4, 1))]
    vector = b"OTV1\0\2" + b"".join(entries)
    for cursor in dot((0, 1)), dot((1, 0)), dot((1, GREATEST + 1)):
        yield cursor + vector
    cursor = dot((3, 2))
    yield cursor
    yield cursor + vector[:-1]
    yield cursor + vector + b"\0"
    yield cursor + b"OTV2" + vector[4:]
    yield cursor + b"OTV1\0\2" + entries[1] + entries[0]
    yield cursor + b"OTV1\0\2" + entries[0] * 2
    yield cursor + b"OTV1\0\1" + dot((3, 0))
    yield cursor + b"OTV1\0\1" + dot((0, 3))
    yield cursor + b"OTV1\0\1" + dot((3, GREATEST + 1))
