"""clients: logins and what follows them at random regions, and what their replies promise."""
import json
import typing

from lib.asking import REDIRECT_TEXT, basic
from model import handle_of

SUBJECTS, RECENT = 300, 600
KINDS = "access_token", "refresh_token"
CLIENTS, LEAST = 12, 8  # at the beginning, and below which none is retired
OPERATORS = None, "root", "~" * 128


class Client:
    """`secret` is what it uses. `secrets` are all that it was to have, also by requests that got no
    reply; `changed` is the round of the last one.
    """

    def __init__(self, name, secret, number):
        self.id, self.secret, self.secrets, self.changed = name, secret, [secret], number


class Consent(typing.NamedTuple):
    id: str
    client: Client
    subject: str


class Family:
    def __init__(self, consent, code, start):
        self.client, self.subject, self.code = consent.client, consent.subject, code
        self.start, self.tokens = start, []


class Token:
    """`home` gave it. `is_used` means: by a request that may have been done."""

    def __init__(self, text, kind, family, home, number):
        self.text, self.kind, self.family, self.home = text, kind, family, home
        self.round, self.is_used, self.ended = number, False, None

    def __str__(self):
        return "the %s %s of %s" % (self.kind, handle_of(self.text).dot, self.text)


class Ended(typing.NamedTuple):
    """What a reply said: that what ends a token is at the dot of a region's fact."""

    token: Token
    number: int
    serial: int
    why: str


class Clients:
    """What clients have. `serials` are, by region number, up to which facts are replied, and
    `operators`, by number and serial, who administered.
    """

    def __init__(self, world):
        self.world, self.dice = world, world.dice
        self.clients, self.consents, self.families = [], [], []
        self.tokens, self.fresh, self.spent, self.ends = [], [], [], []
        self.serials, self.operators = {}, {}
        self.ways, self.weights = zip(
            (self.log_in, 300), (self.use, 320), (self.reuse, 40), (self.use_again, 40),
            (self.revoke, 80), (self.sign_out, 6), (self.retire, 1), (self.withdraw, 5),
            (self.add_client, 2), (self.change_secret, 4), (self.log_out, 6), (self.probe, 196))

    def begin(self):
        """Adds the resource server, which all regions ask as, and the first clients."""
        first = self.world.regions[0]
        it = self.add_client(first, "resource")
        for region in (*self.world.regions, self.world.witness):
            region.resource = basic(it.id, it.secret)
        for _ in range(CLIENTS):
            self.add_client(self.world.one())

    def step(self, region):
        self.dice.choices(self.ways, self.weights)[0](region)

    def post(self, region, target, **fields):
        """Status, body, and number and serial of the last fact that the request made, if any."""
        before, (status, said) = region.serial(), region.post(target, **fields)
        region.held_to()
        self.world.count("%s %d" % (target, status))
        return status, said, self.promise(region) if region.serial() > before else None

    def administer(self, region, target, **fields):
        """What `post` returns, of a request by an operator, or by nobody."""
        operator = self.dice.choice(OPERATORS)
        status, said, made = self.post(region, target, operator=operator, **fields)
        if made:
            self.operators[made] = operator
        return status, said, made

    def promise(self, region):
        self.serials[region.number] = region.serial()
        return region.number, region.serial()

    def wanted(self, statuses, what, status, said):
        """Whether a status is one of these. Any other was found."""
        if status not in statuses:
            self.world.found("%s is answered %d %s" % (what, status, said[:200]))
        return status == statuses[0]

    def add_client(self, region, kind="confidential"):
        """Adds a client, and returns it; None if the region refuses."""
        secret = "%032x" % self.dice.getrandbits(128)
        status, said, _ = self.administer(region, "/admin/client", kind=kind, secret=secret,
                                          scope="read write", redirects=REDIRECT_TEXT)
        if not self.wanted((201,), "a new client", status, said):
            return None
        client = Client(json.loads(said)["client_id"], secret, self.world.round)
        if kind == "confidential":
            self.clients.append(client)
        return client

    def change_secret(self, region):
        """Changes the secret of a client, once a round: all regions know its last turn then."""
        clients = [it for it in self.clients if it.changed < self.world.round]
        if not clients:
            return
        client = self.dice.choice(clients)
        client.changed = self.world.round
        client.secrets.append("%032x" % self.dice.getrandbits(128))
        ended = {"old": "ended"} if self.world.chance(0.3) else {}
        status, said, _ = self.administer(region, "/admin/secret", client_id=client.id,
                                          secret=client.secrets[-1], **ended)
        if self.wanted((201, 404), "a new secret", status, said):
            client.secret = client.secrets[-1]

    def consent(self, region, client):
        """A consent of a random subject; None if the region doesn't know the client."""
        subject = "u%d" % self.dice.randrange(SUBJECTS)
        status, said, _ = self.administer(
            region, "/admin/consent", client_id=client.id, subject=subject,
            scope=self.dice.choice(("read", "read write")))
        self.wanted((201, 200, 404), "a consent", status, said)
        if status not in (200, 201):
            return None
        name = json.loads(said)["consent_id"]
        held = next((it for it in self.consents if it.id == name), None)
        if not held:  # a status of 200 has the id of one that is held
            self.consents.append(held := Consent(name, client, subject))
        return held

    def log_in(self, region):
        """Obtains a code by a consent, mostly one that is there, and mostly redeems it."""
        if self.consents and self.world.chance(0.85):
            consent = self.dice.choice(self.consents[-400:])
        else:
            consent = self.consent(region, self.dice.choice(self.clients))
        code = consent and region.code(consent.client.id, consent.subject)
        region.held_to()
        if not code:
            self.world.count("no code")
            return
        self.promise(region)
        family = Family(consent, code, region.clock.moment)
        self.families.append(family)
        if self.world.chance(0.93):
            self.redeem(region, family)
        luck = self.dice.random()
        if luck < 0.06:  # a second time, here or elsewhere
            self.redeem(region if luck < 0.03 else self.world.one(), family)

    def request(self, family, **fields):
        """The fields of a request of a family's client."""
        return fields | {"client_id": family.client.id, "client_secret": family.client.secret}

    def redeem(self, region, family):
        status, said, _ = self.post(region, "/token", **self.request(
            family, grant_type="authorization_code", code=family.code,
            redirect_uri=REDIRECT_TEXT))
        self.keep(region, family, status, said)

    def keep(self, region, family, status, said):
        """Keeps the tokens of a reply, which must be of the region's number."""
        if status != 200:
            return []
        new = [Token(json.loads(said)[kind], kind, family, region, self.world.round)
               for kind in KINDS]
        family.tokens += new
        self.tokens += new
        self.fresh.append(new[1])
        number, serial = map(int, handle_of(new[0].text).dot.split(":"))
        self.serials[number] = max(serial, self.serials.get(number, 0))
        if number != region.number:
            self.world.found("%s gives %s" % (region, new[0]))
        return new

    def refresh(self, region, token):
        """Uses a refresh token: returns the status, and the tokens that it got."""
        before, token.is_used = token.is_used, True
        status, said, _ = self.post(region, "/token", **self.refreshing(token))
        new = self.keep(region, token.family, status, said)
        if status == 200:
            self.spent.append(token)
        else:
            token.is_used = before or token.home is region
        return status, new

    def refreshing(self, token):
        return self.request(token.family, grant_type="refresh_token", refresh_token=token.text)

    def pick_fresh(self):
        """A refresh token that isn't used, mostly a new one; None if there is none."""
        while self.fresh:
            at = self.dice.randrange(max(0, len(self.fresh) - 500), len(self.fresh))
            if not self.fresh[at].is_used:
                return self.fresh[at]
            self.fresh[at] = self.fresh[-1]
            self.fresh.pop()
        return None

    def use(self, region):
        token = self.pick_fresh()
        if token:
            at_home = token.home.is_running and self.world.chance(0.6)
            self.refresh(token.home if at_home else region, token)

    def reuse(self, region):
        """Uses a refresh token twice at one region: the family is dead there, and then anywhere."""
        token = self.pick_fresh()
        if not token:
            return
        region = token.home if token.home.is_running else region
        status, new = self.refresh(region, token)
        if status != 200:
            return
        status, said, made = self.post(region, "/token", **self.refreshing(token))
        if status != 400 or b"invalid_grant" not in said:
            self.world.found("a second use at %s is answered %d %s" % (region, status, said))
        self.world.count("reuses")
        self.end(token.family.tokens, "reuse")
        self.ends += [Ended(it, *made, "reuse") for it in new if made]

    def end(self, tokens, why):
        for it in tokens:
            it.ended = it.ended or why

    def use_again(self, region):
        """Uses a token that was used before, perhaps elsewhere."""
        if self.spent:
            self.refresh(region, self.dice.choice(self.spent[-300:]))

    def revoke(self, region):
        """Revokes one of the newest tokens."""
        if not self.tokens:
            return
        token = self.dice.choice(self.tokens[-RECENT:])
        status, said, made = self.post(region, "/revoke",
                                       **self.request(token.family, token=token.text))
        # the client of the token may not be known here yet, or be retired
        if not self.wanted((200, 401), "a revocation", status, said):
            return
        if made:
            self.ends.append(Ended(token, *made, "revocation"))
            tokens = token.family.tokens if token.kind == "refresh_token" else [token]
            self.end(tokens, "revocation")

    def sign_out(self, region):
        """Signs out the subject of a family, one of the newest."""
        if not self.families:
            return
        subject = self.dice.choice(self.families[-300:]).subject
        status, said, made = self.administer(region, "/admin/signout", subject=subject)
        if not self.wanted((200,), "a sign-out", status, said):
            return
        for family in self.families:
            if family.subject == subject and family.start <= region.clock.moment:
                self.end(family.tokens, "sign-out")
                self.ends += [Ended(it, *made, "sign-out") for it in family.tokens if made]

    def log_out(self, region):
        """Ends the login of a family, one of the newest.

        No region alone promises its end: one may know a second redemption of the code before the
        redemption whose refresh token was revoked.
        """
        if not self.families:
            return
        family = self.dice.choice(self.families[-300:])
        login = "l" + handle_of(family.code).dot.replace(":", "-")
        status, said, made = self.administer(region, "/admin/logout", login_id=login)
        if self.wanted((200, 404), "a logout", status, said) and made:
            self.end(family.tokens, "logout")

    def retire(self, region):
        """Retires a client, unless too few are left."""
        if len(self.clients) < LEAST:
            return
        client = self.dice.choice(self.clients)
        status, said, made = self.administer(region, "/admin/retire", client_id=client.id)
        if not self.wanted((200, 404), "a retirement", status, said):
            return
        self.clients.remove(client)
        self.consents = [it for it in self.consents if it.client is not client]
        for family in self.families:
            if family.client is client:
                self.end(family.tokens, "retirement")
                self.ends += [Ended(it, *made, "retirement") for it in family.tokens if made]

    def withdraw(self, region):
        if not self.consents:
            return
        consent = self.dice.choice(self.consents)
        status, said, _ = self.administer(region, "/admin/withdraw", consent_id=consent.id)
        if self.wanted((200, 404), "a withdrawal", status, said):
            self.consents.remove(consent)

    def probe(self, region):
        """A token whose end was replied is inactive at each region that has the fact of it."""
        if not self.ends:
            return
        it = self.dice.choice(self.ends[-2000:])
        if region.held_to().get(it.number, 0) < it.serial:
            return
        said = region.introspection(it.token.text)
        self.world.count("probes")
        if said and said["active"]:
            self.world.found("active after its %s at %d:%d: %s at %s" % (
                it.why, it.number, it.serial, it.token, region))
