"""regions: sites whose clocks are files, and a witness that is never killed and never prunes."""
import json
import re
import urllib.parse

from bundles import Dot, Vector, read_bundle
from lib import Broken
from lib.asking import REDIRECT_TEXT, basic, body_of, request
from lib.server import Server, Tokend
from lib.site import Site
from lib.waiting import until

START = "../starter/tokend-start"
SEEN = " --refresh-seen all --repeat 0"  # the model is of refresh tokens, and of their reuse
FORM = "Content-Type: application/x-www-form-urlencoded"
NUMBERS, WITNESS = 30_000, 65_000  # region numbers of all first folders; the witness's
PATIENCE = 120  # seconds of a start


def vector_of(serials):
    """A vector, by region."""
    return Vector(tuple(Dot(*it) for it in sorted(serials.items())))


class Answering(Tokend):
    """A region, with replies of any status. A cut reply, or none, is an OSError."""

    def post(self, target, operator=None, **fields):
        """Status and body of the reply to a form, perhaps of an operator."""
        by = ["X-Operator: " + operator] if operator else []
        sent = request("POST", target, urllib.parse.urlencode(fields).encode(), FORM, *by)
        status, said = self.send(sent)
        return status, body_of(said)

    def code(self, client_id, subject):
        """The code of a login; None if there is no such consent, or the client isn't known."""
        target = "/authorize?" + urllib.parse.urlencode({
            "response_type": "code", "client_id": client_id, "scope": "read",
            "redirect_uri": REDIRECT_TEXT})
        _, said = self.send(request("GET", target, b"", "X-Subject: " + subject))
        found = re.search(rb"[?&]code=([\w.~-]+)", said)
        return found and found[1].decode()

    def introspection(self, token):
        """What a resource server gets; None if this region doesn't know it yet."""
        sent = request("POST", self.introspect, b"token=" + token.encode(), FORM,
                       "Authorization: Basic " + self.resource)
        status, said = self.send(sent)
        return json.loads(body_of(said)) if status == 200 else None

    def takes(self, client_id, secret):
        """Whether this is a good secret of the client here."""
        sent = request("POST", "/revoke", b"token=none", FORM,
                       "Authorization: Basic " + basic(client_id, secret))
        return self.send(sent)[0] == 200

    def bundles(self, serials):
        """The pages of what a vector doesn't cover."""
        for page in self.pages(vector_of(serials).write()):
            bundle = read_bundle(page)
            if bundle.items:
                yield bundle

    def items(self):
        """All facts and marks, and the horizon; -1 if there is no mark."""
        pages = list(self.bundles({}))
        horizon = max((it.horizon for it in pages if it.marks), default=-1)
        return [it for page in pages for it in page.items], horizon

    def take(self, bundle):
        """Pushes a bundle, which must be taken."""
        status, said = self.ask("/sync/push", bundle.write())
        if status != 200:
            raise Broken("%s refuses a push: %d %s of %s" % (
                self, status, said, [it[:10].hex() for it in bundle.items[:4]]))


class Witness(Answering, Server):
    """Holds all facts: it has no log, isn't killed and doesn't prune, and gets no marks."""

    def __init__(self, program, clock):
        self.clock = clock
        super().__init__(program, region=WITNESS, before=("env", *clock.words))

    def __str__(self):
        return "the witness"


class Region(Answering, Site):
    """A site. `group` is its part of a network that is cut, `seen` a vector that it gave."""

    def __init__(self, folder, index, share, port, clock):
        super().__init__(folder / ("site-%d" % index), 1 + share * index, share)
        self.index, self.share, self.port, self.clock = index, share, port, clock
        self.number = self.group = self.prunes = 0
        self.seen, self.is_running, self.is_lost = {}, False, False

    def __str__(self):
        return "region %d (number %d, %d prunes)" % (self.index, self.number, self.prunes)

    def start(self, lives, peers=(), margin=None):
        before = ["env", *self.clock.words, "TOKEND_PEERS=" + " ".join(it.url for it in peers)]
        if margin:
            before.append("TOKEND_PRUNE_MARGIN=%d" % margin)
            self.prunes += 1
        self.begin(options=lives + SEEN, before=before, script=START)

    def await_up(self):
        """Waits until it replies: returns what it had before, and hasn't now, by number."""
        try:
            is_up = until(self.is_up, PATIENCE)
        except AssertionError as why:
            raise Broken("%s: a start ended: %s" % (self, str(why)[-300:])) from None
        if not is_up:
            raise Broken("%s doesn't reply" % self)
        before, self.is_running = self.seen, True
        self.number = int((self.folder / "number").read_text(encoding="ascii"))
        now = self.held_to()
        return {number: (serial, now.get(number, 0)) for number, serial in before.items()
                if now.get(number, 0) < serial}

    def kill(self):
        self.stop()
        self.is_running = False

    def lose(self):
        """Loses its folder, and goes on in an empty one, with numbers that no run had."""
        self.is_lost, self.seen = True, {}
        self.folder = self.folder.with_name(self.folder.name + "-again")
        for name in "log", "old", "history":
            (self.folder / name).mkdir(parents=True)
        first = self.first + NUMBERS
        self.numbers = "%d-%d" % (first, first + self.share - 1)

    def held_to(self):
        self.seen = super().held_to()
        return self.seen

    def serial(self):
        """The greatest serial of its own, as it was seen last."""
        return self.seen.get(self.number, 0)

    def bytes_of_files(self):
        return sum(it.stat().st_size for it in self.folder.rglob("*") if it.is_file())
