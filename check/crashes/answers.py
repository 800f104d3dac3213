"""answers: tokens and their families, and what the replies of one site have said of them."""
import base64
import threading

from lib.facts import ACCESS, MARK, REFRESH, facts_of
from lib.reading import WITH_OPERATOR, Bytes

DOT, NAME = slice(0, 10), slice(11, 22)  # of a fact: its dot, and the token that it names
ROTATED, REVOKED, REUSED, SUBJECT_OUT = 7, 8, 9, 10  # the kinds of facts that end tokens


class Family:
    """The tokens of one login. It may end once a request was sent that ends all of it."""

    by_subject = {}  # of logins that are their subject's only one

    def __init__(self, subject=None):
        self.tokens, self.may_end, self.subject = [], False, subject
        if subject:
            self.by_subject[subject] = self


class Token:
    """A token that a reply gave. It may end once a request was sent that uses or revokes it."""

    by_name = {}  # a fact names a token by the dot of the fact that minted it, and its kind

    def __init__(self, text, family):
        handle = base64.urlsafe_b64decode(text)
        self.text, self.family, self.is_sent = text, family, False
        self.name = handle[2:12] + handle[1:2]
        self.by_name[self.name] = self
        family.tokens.append(self)

    def __str__(self):
        return "%s token %s" % ("access" if self.name[-1] == ACCESS else "refresh", self.text)

    def may_end(self):
        return self.is_sent or self.family.may_end


class Passing:
    """A fact that may be skipped. One that prunes alone skip may come back: see `is_kept`."""

    by_dot = {}

    def __init__(self, said, may_return):
        self.said, self.may_return = said, may_return
        self.by_dot[said[DOT]] = self


def is_kept(at, said, got):
    """Whether `got` is what was said of a dot, or what may have become of that.

    If the logs have the mark of a code, and none of its redemption, a prune leaves the redemption:
    it is under no code any more.
    """
    fact = Passing.by_dot.get(at)
    if got == said or not fact:
        return got == said
    return got == at if said != at else fact.may_return and got == fact.said


def read_horizon(page):
    """The horizon of a page with marks; of another page 0."""
    return int.from_bytes(page[4:12], "big") if page.startswith((b"OTB3", b"OTB5")) else 0


def read_vector(said):
    """For each region of a vector, the serial up to which its facts are held."""
    entries = [said[at:at + 10] for at in range(6, len(said), 10)]
    return {it[:2]: int.from_bytes(it[2:], "big") for it in entries}


def dot_text(dot):
    return "%d:%d" % (int.from_bytes(dot[:2], "big"), int.from_bytes(dot[2:], "big"))


class Answers:
    """What one site has said: which tokens are active, which have ended, and which facts it holds.

    A token that was active and is inactive once has ended: no fact makes it active again. A token
    that the site doesn't know yet is inactive too, and becomes active when its facts arrive.
    """

    def __init__(self):
        self.lock, self.told, self.used = threading.Lock(), {}, []
        self.facts, self.vector, self.horizon = {}, {}, 0

    def knows(self, token):
        return token in self.told

    def say_active(self, *tokens):
        """A reply gave these tokens, or said that they are active."""
        with self.lock:
            for it in tokens:
                self.told.setdefault(it, True)

    def say_ended(self, token):
        with self.lock:
            self.told[token] = False

    def say_used(self, token):
        """A reply, or a fact that the site took in, says that this refresh token was used."""
        self.say_ended(token)
        with self.lock:
            self.used.append(token)

    def say_family_ended(self, family):
        """The site knows that a family has ended: so have all of its tokens that were active."""
        with self.lock:
            for it in family.tokens:
                if it in self.told:
                    self.told[it] = False

    def say_held(self, page):
        """The site gave these facts and marks, or replied to a push of them. A mark stays."""
        with self.lock:
            self.horizon = max(self.horizon, read_horizon(page))
            for it in facts_of(page):
                if self.facts.get(it[DOT]) != it[DOT]:
                    self.facts[it[DOT]] = it

    def say_signed_out(self, family):
        """The site knows that a family's subject is signed out: tokens that arrive have ended."""
        for it in family.tokens:
            self.say_ended(it)

    def say_taken(self, page):
        """The site replied to a push of this page: its facts end tokens from now on."""
        self.say_held(page)
        for fact in facts_of(page):
            if len(fact) == MARK:
                continue
            kind, name = WITH_OPERATOR.get(fact[MARK], fact[MARK]), fact[NAME]
            if kind == SUBJECT_OUT:
                self.say_signed_out(Family.by_subject[Bytes(fact, MARK + 1).text()])
            elif kind == ROTATED:
                self.say_used(Token.by_name[name[DOT] + bytes([REFRESH])])
            elif kind in (REVOKED, REUSED):
                self.end_by(kind, Token.by_name[name])

    def end_by(self, kind, token):
        """A fact is held that says that the token was revoked or used twice."""
        is_family = self.knows(token) and token.name[-1] == REFRESH
        if kind == REVOKED:
            self.say_ended(token)
        if is_family:
            self.say_family_ended(token.family)

    def say_vector(self, vector):
        with self.lock:
            for region, serial in read_vector(vector).items():
                self.vector[region] = max(serial, self.vector.get(region, 0))

    def claims(self):
        """Each token that must be active or inactive, with True or False."""
        for token, is_active in self.told.items():
            if not is_active or not token.may_end():
                yield token, is_active

    def missing_facts(self, held):
        """A line if facts that the site said it holds aren't among these, or are others."""
        missing = sorted(dot for dot, fact in self.facts.items()
                         if not is_kept(dot, fact, held.get(dot)))
        if missing:
            yield "of %d facts that were acknowledged %d are missing, the first is %s" % (
                len(self.facts), len(missing), dot_text(missing[0]))

    def lower_horizon(self, horizon):
        """A line if the site's horizon was later before."""
        if horizon < self.horizon:
            yield "the horizon was %d, and is %d" % (self.horizon, horizon)

    def lower_entries(self, vector):
        """A line for each entry of the site's vector that was greater before."""
        now = read_vector(vector)
        for region, serial in sorted(self.vector.items()):
            if now.get(region, 0) < serial:
                yield "the vector had %s, and has %d" % (
                    dot_text(region + serial.to_bytes(8, "big")), now.get(region, 0))
