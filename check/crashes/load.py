"""load: clients and a carrier at work between two sites, until one is killed or they must stop."""
import itertools
import json
import random
import threading
import time

from answers import Family, Token
from lib.asking import body_of, request
from sites import carry

PAUSES = 0.02, 0.02, 0.6  # at most, in seconds, between two carries: for short and full pages
LONGEST_WAIT = 1  # seconds for the reply that a kill waits for
SUBJECTS = itertools.count(1)
RECENT = 300  # tokens among which a look chooses
OPERATOR = ["X-Operator: root"]


class Moment:
    """When the victims of a round are killed, and whether its workers must stop."""

    def __init__(self, victims):
        self.victims, self.lock = victims, threading.Lock()
        self.kill, self.stop = threading.Event(), threading.Event()

    def strike(self):
        """Sends SIGKILL to the victims, once."""
        with self.lock:
            if not self.kill.is_set():
                self.kill.set()
                for it in self.victims:
                    it.server.child.kill()

    def strike_at_reply(self):
        """Strikes as soon as a victim replies to what makes a fact or brings some."""
        for it in self.victims:
            it.server.replied = self.strike
        self.kill.wait(LONGEST_WAIT)
        self.strike()


class Worker(threading.Thread):
    """Takes steps until it must stop. What goes wrong before a kill is kept."""

    def __init__(self, sites, moment):
        super().__init__()
        self.sites, self.moment, self.wrong, self.count = sites, moment, None, 0

    def run(self):
        """Steps until the run stops or a site is killed. Any other end is kept in `wrong`."""
        try:
            while not self.moment.stop.is_set():
                self.count += self.step()
        except OSError as why:
            if not self.moment.kill.is_set():
                self.wrong = "no reply, and nothing was killed: %s" % why
        except Exception as why:  # of any kind: a thread that ends of it would go unseen
            self.wrong = repr(why)

    def step(self):
        """Does something, and returns how many replies it noted."""
        raise NotImplementedError


class Carrier(Worker):
    """Pulls from one region and pushes to the other, both ways.

    Some pulls are for an older vector, so that pages have known facts and new ones.
    """

    def __init__(self, sites, moment):
        super().__init__(sites, moment)
        self.older = {}

    def step(self):
        """Carries from one site to another, by its vector or an older one, and waits a little."""
        one, other = random.sample(self.sites, 2)
        vector = other.say_vector()
        count = carry(one, other, random.choice([vector, self.older.get(other, vector)]))
        self.older[other] = vector
        time.sleep(random.random() * random.choice(PAUSES))
        return count


class Pair:
    """The newest tokens of a family, the site that gave them, and the token they were got with."""

    def __init__(self, said, family, site, parent=None):
        self.access = Token(said["access_token"], family)
        self.refresh = Token(said["refresh_token"], family)
        self.family, self.site, self.parent = family, site, parent
        site.answers.say_active(self.access, self.refresh)


class Client(Worker):
    """Logs in, refreshes, revokes, reuses and introspects at both sites. An operator gives
    consents, signs out and ends logins.

    Each family has one client, so a refresh token is used twice only if that client means it.
    """

    def __init__(self, sites, moment, pairs, recent):
        super().__init__(sites, moment)
        self.pairs, self.recent = pairs, recent

    def step(self):
        """Sends one request of a random kind, or a login if no tokens are left."""
        way, = random.choices(*zip(
            (self.log_in, 20), (self.log_in_anew, 5), (self.look, 22), (self.refresh, 35),
            (self.revoke, 12), (self.revoke_family, 3), (self.reuse, 3), (self.sign_out, 6),
            (self.log_out, 6)))
        if way in (self.log_in, self.log_in_anew, self.look):
            way()
        elif pair := self.take():
            way(pair)
        else:
            self.log_in()
        return 1

    def take(self):
        """A pair whose family hasn't ended, until it is kept again; None if there is none."""
        while self.pairs:
            pair = self.pairs.pop(random.randrange(len(self.pairs)))
            if not pair.family.may_end:
                return pair
        return None

    def keep(self, pair):
        self.pairs.append(pair)
        self.recent.extend([pair.access, pair.refresh])
        del self.recent[:-RECENT]

    def log_in(self, subject=None):
        """A login of ann, or of another subject, who gives consent first."""
        site, header = random.choice(self.sites), None
        if subject:
            site.server.form("/admin/consent", {
                "client_id": site.enrolled.client_id, "subject": subject, "scope": "read write",
            }, status=201, more=OPERATOR)
            header = "X-Subject: " + subject
        self.keep(Pair(site.server.log_in(header), Family(subject), site))

    def log_in_anew(self):
        self.log_in("subject-%d" % next(SUBJECTS))

    def refresh(self, pair):
        """Uses the refresh token, at the other site too if it knows the token."""
        site = random.choice(self.sites)
        if site is not pair.site and not introspect(site, pair.refresh):
            site = pair.site
        used = pair.refresh
        used.is_sent = True
        said = site.server.refresh(used.text)
        site.answers.say_used(used)
        self.keep(Pair(said, pair.family, site, used))

    def revoke(self, pair):
        """Revokes the access token, at a site that may not know it yet."""
        pair.access.is_sent = True
        revoke(random.choice(self.sites), pair.access)
        self.pairs.append(pair)

    def revoke_family(self, pair):
        pair.family.may_end = True
        revoke(pair.site, pair.refresh)
        pair.site.answers.say_family_ended(pair.family)

    def reuse(self, pair):
        """Sends the token that was used for these once more, which ends the family."""
        if pair.parent:
            reuse(pair.site, pair.parent)

    def sign_out(self, pair):
        """Signs out the subject of a login that is their only one, maybe where it isn't known."""
        if not pair.family.subject:
            self.refresh(pair)
            return
        pair.family.may_end = True
        site = random.choice(self.sites)
        site.server.form("/admin/signout", {"subject": pair.family.subject}, more=OPERATOR)
        site.answers.say_signed_out(pair.family)

    def log_out(self, pair):
        """Ends the login of a subject that has no other one, where it is known."""
        if not pair.family.subject:
            self.refresh(pair)
            return
        pair.family.may_end = True
        asked = request("GET", "/admin/subject?subject=" + pair.family.subject)
        login, = json.loads(body_of(pair.site.server.wanted(200, asked)))["logins"]
        pair.site.server.form("/admin/logout", {"login_id": login["login_id"]}, more=OPERATOR)
        pair.site.answers.say_family_ended(pair.family)

    def look(self):
        if self.recent:
            introspect(random.choice(self.sites), random.choice(self.recent))


def introspect(site, token):
    """Whether a token is active at a site. A reply that says so either way is noted."""
    is_known = site.answers.knows(token)
    is_active = site.server.is_active(token.text)
    if is_active:
        site.answers.say_active(token)
    elif is_known:
        site.answers.say_ended(token)
    return is_active


def revoke(site, token):
    site.server.form(site.server.revoke, {"token": token.text}, site.server.client)
    site.answers.say_ended(token)


def reuse(site, token):
    """Sends a used refresh token to a site that knows its use."""
    token.family.may_end = True
    site.server.refresh(token.text, 400)
    site.answers.say_family_ended(token.family)


class Load:
    """The clients and the carrier; what clients have goes on from one round to the next."""

    def __init__(self, sites, clients):
        self.sites, self.pairs = sites, [([], []) for _ in range(clients)]

    def start(self, moment, *others):
        workers = [Client(self.sites, moment, *it) for it in self.pairs]
        workers += [Carrier(self.sites, moment), *others]
        for it in workers:
            it.start()
        return workers
