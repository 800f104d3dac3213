"""operators: whether facts name who administered, and what a prune leaves of that.

A server is asked for administration by several operators and by nobody, and for logins that end
soon. Each fact must name its operator, at a moment while its request was under way. Once all
families are over, two servers load the facts, and one of them prunes. Facts that last must be as
they were, and marks in the place of all others. Both must reply alike, and name operators alike.
"""
import base64
import json
import random
import re
import time

from lib.asking import REDIRECT_TEXT, basic
from lib.facts import DOT, MARK, WITH_OPERATOR, facts_of
from lib.reading import PASSING, items_of
from lib.server import Server

SECRET, CHANGED, LIFE = "s3cret", "n3w", 5  # the last in seconds, of a family
OPERATORS = None, "root", "!", 'a"\\b', "~" * 128
MALFORMED = "", "a b", "~" * 129, "\x80"
RIGHTS = {"kind": "confidential", "secret": SECRET, "scope": "read write",
          "redirects": REDIRECT_TEXT}
LIVES = {"access_life": 600, "refresh_life": 3600, "family_life": 604800}
MADE, SHOWN, REGION = 201, 200, 1


class Differs(Exception):
    """Something isn't so."""


def wanted(it, what, *said):
    if not it:
        raise Differs("%s: %s" % (what, ", ".join(map(str, said))))


def fact_of(item):
    return items_of(item, None)[0]


class History:
    """What a server was asked for. `by` has the operator of each fact, and two moments around."""

    def __init__(self, server, dice):
        self.server, self.dice, self.by, self.serial = server, dice, {}, 0
        self.clients, self.subjects, self.logins, self.tokens = [], [], [], []
        self.count, self.operator, self.log, self.items = 0, None, b"", []

    def ask(self, method, path, form, status, **fields):
        """The reply to a request, and whether it made a fact."""
        begin, before = int(time.time()), self.serial
        got, place, said = self.server.ask_as(method, path, form, **fields)
        self.serial, self.count = self.server.held_to().get(REGION, 0), self.count + 1
        wanted(got == status, "%s %s %s" % (method, path, form), got, said)
        wanted(self.serial - before in (0, 1), "facts of one request", before, self.serial)
        if self.serial > before:
            operator = fields.get("X-Operator") if path.startswith("/admin/") else None
            self.by["%d:%d" % (REGION, self.serial)] = operator, begin, int(time.time())
        return place or said, self.serial > before

    def administer(self, name, form, status=SHOWN, is_new=True):
        """The members of the reply to a request of the operator, once a malformed one is refused.
        """
        path, fields = "/admin/" + name, {"X-Operator": self.operator} if self.operator else {}
        bad = self.dice.choice(MALFORMED).encode("latin-1")
        wanted(not self.ask("POST", path, form, 400, **{"X-Operator": bad})[1],
               "a fact of no operator", path)
        said, is_made = self.ask("POST", path, form, status, **fields)
        wanted(is_made == is_new, "whether it makes a fact", path, form)
        return json.loads(said)

    def again(self, name, form):
        """A request whose fact is held already, by another operator."""
        self.operator, before = self.dice.choice(OPERATORS), self.operator
        self.administer(name, form, is_new=False)
        self.operator = before

    def add_client(self, **given):
        client = self.administer("client", RIGHTS | given, MADE)["client_id"]
        self.clients.append(client)
        return client

    def add_limited(self):
        self.add_client(**LIVES)

    def retire(self):
        form = {"client_id": self.add_client()}
        self.administer("retire", form)
        self.again("retire", form)

    def consent(self):
        """A new client, a new subject, and the id of its consent."""
        client, subject = self.add_client(), "s%d" % len(self.subjects)
        self.subjects.append(subject)
        said = self.administer("consent", {"client_id": client, "subject": subject,
                                           "scope": "read write"}, MADE)
        return client, subject, said["consent_id"]

    def withdraw(self):
        form = {"consent_id": self.consent()[2]}
        self.administer("withdraw", form)
        self.again("withdraw", form)

    def log_in(self):
        """A login of a new subject, which is returned."""
        client, subject, _ = self.consent()
        place, _ = self.ask("GET", "/authorize?response_type=code&client_id=" + client, None, 302,
                            **{"X-Subject": subject, "X-Operator": "root"})
        code = re.search(r"[?&]code=([\w-]+)", place)[1]
        said, _ = self.ask("POST", "/token", {"grant_type": "authorization_code", "code": code},
                           SHOWN, Authorization="Basic " + basic(client, SECRET))
        self.tokens += [(json.loads(said)[it], client) for it in ("access_token", "refresh_token")]
        self.logins.append("l%d-%d" % DOT.unpack_from(base64.urlsafe_b64decode(code), 2))
        return subject

    def log_out(self):
        self.log_in()
        form = {"login_id": self.logins[-1]}
        self.administer("logout", form)
        self.again("logout", form)

    def sign_out(self):
        self.administer("signout", {"subject": self.log_in()})

    def set_secret(self):
        form = {"client_id": self.add_client(), "secret": CHANGED}
        self.administer("secret", form, MADE)
        self.again("secret", form)

    def go(self):
        """Each kind of administration by each operator, in any order."""
        ways = (self.add_client, self.add_limited, self.retire, self.consent, self.withdraw,
                self.log_out, self.sign_out, self.set_secret)
        each = [(way, operator) for way in ways for operator in OPERATORS]
        self.dice.shuffle(each)
        for way, self.operator in each:
            way()

    def check_names(self):
        """Each fact names its operator, or nobody, and a moment of its request."""
        wanted(len(self.items) == self.serial, "facts of the log", len(self.items), self.serial)
        missing = {*WITH_OPERATOR, *WITH_OPERATOR.values()} - {it[MARK] for it in self.items}
        wanted(not missing, "kinds without a fact", missing)
        for fact in map(fact_of, self.items):
            operator, begin, end = self.by[fact["dot"]]
            named = fact.get("by")
            wanted((named and named["operator"]) == operator, "the operator", fact, operator)
            if named:
                moment = named["moment_seconds"]
                wanted(begin <= moment <= end, "the moment", fact, begin, end)
                wanted(fact.get("moment_seconds", moment) == moment, "two moments", fact)

    def looks(self):
        """Requests that show all that the history has."""
        for client in self.clients:
            yield "GET", "/admin/client?client_id=" + client, None, {}
            for secret in SECRET, CHANGED:
                proof = {"Authorization": "Basic " + basic(client, secret)}
                yield "POST", "/revoke", {"token": "none"}, proof
        for subject in self.subjects:
            yield "GET", "/admin/subject?subject=" + subject, None, {}
        for token, client in self.tokens:
            proof = {"Authorization": "Basic " + basic(client, SECRET)}
            yield "POST", "/introspect", {"token": token}, proof


def left(item):
    """What a prune leaves of an item once all families are over."""
    return item[:MARK] if fact_of(item)["kind"] in PASSING else item


def held(server):
    return [it for page in server.pages() for it in facts_of(page)]


def begin(program, seed):
    """A history, whose log names who administered."""
    with Server(program, "--family", str(LIFE), region=REGION, load=b"") as server:
        history = History(server, random.Random(seed))
        history.go()
        history.log = server.logged()
    history.items = facts_of(history.log)
    history.check_names()
    return history


def alike(one, other, requests):
    """Sees that two servers reply alike to each of these requests: returns how many there were."""
    count = 0
    for count, (method, path, form, fields) in enumerate(requests, 1):
        first, second = (it.ask_as(method, path, form, **fields) for it in (one, other))
        wanted(first == second, "%s %s" % (method, path), first, second)
    return count


def later(history):
    """Administration of what the history has, by operators."""
    operators = [{"X-Operator": it} if it else {} for it in OPERATORS]
    forms = [("retire", {"client_id": it}) for it in history.clients]
    forms += [("signout", {"subject": it}) for it in history.subjects]
    forms += [("logout", {"login_id": it}) for it in history.logins]
    for at, (name, form) in enumerate(forms):
        yield "POST", "/admin/" + name, form, operators[at % len(operators)]


def made_by(server, number):
    """Of each fact of a region number its kind and its operator."""
    facts = [fact_of(it) for it in held(server) if len(it) > MARK]
    return [(it["kind"], it["by"]["operator"] if "by" in it else None) for it in facts
            if it["dot"].startswith("%d:" % number)]


def compare(program, history):
    """What a prune leaves: returns a line of how much there was."""
    end = max(it.get("family_end_seconds", 0) for it in map(fact_of, history.items))
    time.sleep(max(0, end - time.time()))
    pruned = [left(it) for it in history.items]
    with Server(program, "--prune", str(end), region=2, load=history.log) as one, \
            Server(program, region=3, load=history.log) as other, Server(program, region=4) as new:
        wanted(held(other) == history.items, "another server has other facts")
        wanted(held(one) == pruned, "a prune left something else")
        count = alike(one, other, history.looks())
        for it in new, other:
            it.push_all(list(one.pages()))
            wanted(held(it) == pruned, "marks of a prune left something else")
        count += alike(one, new, history.looks()) + alike(one, other, later(history))
        wanted(made_by(one, 2) == made_by(other, 3), "other facts behind a prune")
    names = sum("by" in fact_of(it) for it in history.items)
    lost = sum("by" in fact_of(it) for it in history.items if len(left(it)) == MARK)
    return "%d requests, %d facts with operators, %d of them skipped, %d replies as without a " \
           "prune" % (history.count, names, lost, count)
