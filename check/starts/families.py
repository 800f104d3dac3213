"""families: a site with logins of families that are over and of one that isn't."""
import time

from lib.facts import ACCESS, FAMILY, Maker, handle, marks_in
from room import wanted

FORM = "kind=confidential&secret=s3cret&scope=read+write&redirects=https://app.example/callback"
WHO = "client_id=c1-1&client_secret=s3cret&"
OVER, LIVE, LOGINS = 2 * FAMILY, 60, 40  # seconds ago, seconds ago, logins of each


class OldLogins:
    """A site whose first run has ended: what it logged, and the access tokens in it."""

    def __init__(self, room):
        self.room = room
        run = room.start().listening()
        wanted(run.ask("/admin/client", FORM)[0] == 201, "no client")
        given = WHO + "subject=ann&scope=read+write"
        wanted(run.ask("/admin/consent", given)[0] == 201, "no consent")
        maker, self.tokens = Maker(60, subject=b"ann"), []
        for ago in (OVER, LIVE):
            maker.now = int(time.time()) - ago
            dots, facts = maker.logins(LOGINS)
            run.push(facts)
            self.tokens += [handle(ACCESS, at) for at in dots]
        self.vector = {1: 2, 60: 4 * LOGINS}
        run.stop()

    def is_as_ever(self, run):
        """Sees that a run holds all, and that the tokens of the families that are over, which are
        the first half, are inactive, and the others active."""
        held = run.held_to()
        wanted({it: held.get(it) for it in self.vector} == self.vector, "another vector", held)
        said = [run.ask("/introspect", WHO + "token=" + it) for it in self.tokens[::13]]
        wanted(all(status == 200 for status, _ in said), "no reply", said)
        active = [b'"active":true' in body for _, body in said]
        due = [at >= LOGINS for at in range(0, 2 * LOGINS, 13)]
        wanted(active == due, "other tokens are active", active)


def marks_of(run):
    """How many marks a server gives."""
    return sum(map(marks_in, run.pages()))
