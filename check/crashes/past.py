"""past: what a region made whose families are over. It is pushed, and skipped, by prunes or marks.

A family here is a code and its redemption. Those of the first kind are over at each prune of a
site. Those of the other kind end later than any horizon here, so only marks skip them.
"""
import itertools
import random
import time

from answers import Passing
from lib.facts import ELSEWHERE, MARK, bundle, client, code, redemption, text
from lib.server import push
from load import Worker

OVER, PRUNE, LAST_HORIZON, LATER = 1100, 2000, 2500, 3000  # moments, in their order
PAUSE = 0.02  # at most, in seconds, between two pushes


class Past:
    """The families, and what was sent last if no reply came: it is sent again."""

    def __init__(self):
        self.serials, self.codes, self.unanswered = itertools.count(3), [], None
        self.horizons = itertools.count(PRUNE)

    def new_client(self):
        return client(ELSEWHERE, next(self.serials))

    def new_family(self):
        """Returns a new code and its redemption, of a family that is over or that lives."""
        one, other = ((ELSEWHERE, next(self.serials)) for _ in range(2))
        end = random.choice([OVER, LATER])
        items = [code(one, end, b"old"), redemption(other, one, end)]
        Passing(items[0], False)
        Passing(items[1], end == OVER)
        self.codes.append(items)
        return items

    def marks(self):
        """The marks of a family."""
        return [it[:MARK] for it in random.choice(self.codes)]

    def horizon(self):
        return min(next(self.horizons), LAST_HORIZON)


class Pusher(Worker):
    """Pushes families that are over, their marks, and other codes where theirs were skipped."""

    def __init__(self, sites, moment, past):
        super().__init__(sites, moment)
        self.past = past

    def step(self):
        """Pushes facts or marks of the past to a random site, or again what got no reply."""
        time.sleep(random.random() * PAUSE)
        site = random.choice(self.sites)
        if self.past.unanswered:
            self.send(site, self.past.unanswered)
            return 1
        ways = [self.family, self.early_marks]
        if self.past.codes:
            ways += [self.marks, self.other_code]
        random.choice(ways)(site)
        return 1

    def send(self, site, items, dropped=()):
        """Pushes items, and notes that they are held; what is dropped has the least dots."""
        self.past.unanswered = items
        said = bundle(items, self.past.horizon())
        site.server.wanted(200, push(bundle([*dropped, *items]) if dropped else said))
        site.answers.say_held(said)
        self.past.unanswered = None

    def family(self, site):
        self.send(site, self.past.new_family())

    def marks(self, site):
        self.send(site, self.past.marks())

    def early_marks(self, site):
        """The marks of a family of which the site has nothing. Its facts arrive later."""
        items = self.past.new_family()
        self.send(site, [it[:MARK] for it in items])
        self.send(random.choice(self.sites), items)

    def other_code(self, site):
        """Another code at a dot at which the site said that it skipped one, and a new client."""
        at = self.past.marks()[0]
        if site.answers.facts.get(at) == at:
            other = Passing.by_dot[at].said.replace(text(b"old"), text(b"new"))
            self.send(site, [self.past.new_client()], [other])
