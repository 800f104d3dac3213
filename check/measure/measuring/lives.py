"""lives: logins at a steady rate, and what follows them, as days of a clock go by.

A life is a generator that yields how many seconds pass until its next request.
"""
import collections
import heapq
import itertools
import random

from lib.asking import REDIRECT_TEXT, authorize, basic
from lib.server import SECRET, WORD

DAY, HOUR = 86_400, 3600
LIVES = "--access", str(HOUR), "--refresh", str(2 * DAY), "--family", str(2 * DAY)
SUBJECTS, REFRESHES, PAUSE = 500, 4, (3000, 3600)  # PAUSE: seconds between two refreshes
LOOKS = 8  # introspections of a login, within LONG of it
LONG, RECENT = 5 * HOUR, 5 * DAY
LOG_OUT, SIGN_OUT, AGAIN, LATE = 0.1, 0.01, 0.01, 0.1  # parts of the logins


class Login:
    """What a client has of a login: its access and refresh tokens, in order."""

    def __init__(self, moment):
        self.moment, self.access, self.refresh = moment, [], []

    def add(self, tokens):
        """Adds the tokens of a grant, and returns whether there are any."""
        if tokens:
            self.access.append(tokens[0])
            self.refresh.append(tokens[1])
        return bool(tokens)


class Lives:
    """All clients of two servers. `counts` is how many requests of each kind there were."""

    def __init__(self, twins, logins):
        self.twins, self.logins, self.dice = twins, logins, random.Random(1)
        self.queue, self.order, self.counts = [], itertools.count(), collections.Counter()
        self.all = []
        self.enrol()
        self.add(self.beat(), 0)
        self.add(self.arrivals(), 0)

    def enrol(self):
        """Adds a client, a resource server, and a consent of each subject."""
        given = {"scope": "read write", "redirects": REDIRECT_TEXT}
        made = self.twins.made
        client = made("/admin/client", kind="confidential", secret=SECRET, **given)
        resource = made("/admin/client", kind="resource", secret=WORD, **given)
        for at in range(SUBJECTS):
            made("/admin/consent", client_id=client, subject="u%d" % at, scope="read write")
        self.client, self.resource = basic(client, SECRET), basic(resource, WORD)
        self.authorize = authorize("/authorize", client)

    def add(self, life, seconds):
        heapq.heappush(self.queue, (self.twins.now + seconds, next(self.order), life))

    def run_to(self, moment):
        """Goes on with all lives up to a moment, and without it."""
        while self.queue[0][0] < moment:
            now, _, life = heapq.heappop(self.queue)
            self.twins.tick(now)
            pause = next(life, None)
            if pause is not None:
                self.add(life, pause)
        self.twins.tick(moment)

    def beat(self):
        """Asks for the vector each ten minutes, so that the kept connections stay."""
        while True:
            self.twins.compare_vectors()
            yield 600

    def arrivals(self):
        """A login at a steady rate, and what is asked of it and of older ones."""
        while True:
            self.all.append(Login(self.twins.now))
            self.add(self.login(self.all[-1]), 0)
            for _ in range(LOOKS):
                self.add(self.look(self.all[-1]), self.dice.randrange(LONG))
            yield DAY // self.logins

    def tokens(self, kind, **fields):
        """The tokens of a grant; None if it is refused."""
        found = self.twins.tokens(self.client, **fields)
        self.counts[kind if found else kind + " refused"] += 1
        return found

    def refresh(self, token, kind="refreshes"):
        return self.tokens(kind, grant_type="refresh_token", refresh_token=token)

    def login(self, login):
        """A login with its refreshes, and how it ends."""
        subject = "u%d" % self.dice.randrange(SUBJECTS)
        code = self.twins.code(self.authorize, subject)
        login.add(self.tokens("logins", grant_type="authorization_code", code=code))
        end, leaves = self.dice.random(), self.dice.randrange(REFRESHES)
        for at in range(REFRESHES):
            yield self.dice.randint(*PAUSE)
            if end < LOG_OUT and at == leaves:
                self.revoke(login.refresh[-1])
                return
            if not login.add(self.refresh(login.refresh[-1])):
                return
        if end < LOG_OUT + SIGN_OUT:
            self.twins.post("/admin/signout", subject=subject)
            self.counts["sign-outs"] += 1
        elif end < LOG_OUT + SIGN_OUT + AGAIN:
            self.refresh(login.refresh[0], "second uses")
        elif end < LOG_OUT + SIGN_OUT + AGAIN + LATE:
            yield self.dice.randint(DAY // 2, RECENT)
            login.add(self.refresh(login.refresh[-1], "late refreshes"))
            self.revoke(login.refresh[-2], "late revocations")

    def revoke(self, token, kind="log-outs"):
        self.twins.post("/revoke", self.client, token=token)
        self.counts[kind] += 1

    def look(self, login):
        """Introspects a login's newest token, or any token of any day, of the last ones mostly."""
        luck = self.dice.random()
        if luck < 0.4:
            at = len(self.all) - self.dice.randrange(min(len(self.all), 5 * self.logins)) - 1
            login = self.all[at if luck < 0.2 else self.dice.randrange(len(self.all))]
        token = login.access[-1] if luck >= 0.4 else self.dice.choice(login.access + login.refresh)
        _, said = self.twins.post("/introspect", self.resource, token=token)
        self.counts["introspections"] += 1
        self.counts["introspections: active"] += b'"active":true' in said
        self.counts["introspections: code four days old"] += self.twins.now - login.moment > 4 * DAY
        yield from ()
