"""story: requests to a server whose calls fail, and what their replies promise."""
import base64
import contextlib
import re
import struct
import urllib.parse

from lib import Broken
from lib.asking import REDIRECT_TEXT, Asked, authorize, basic, dial, is_whole, request
from lib.facts import CURSOR, EMPTY_VECTOR, bundle, consent, facts_of, retirement
from lib.server import SECRET, WORD, push

SHORT, LONG = 0.4, 20  # seconds that a reply may take at the first attempt, and at the last one
HALF = 30  # facts of 1,177 bytes that fill half a part
AWAY = 503  # what a server replies whose log failed


class Lost(Exception):
    """A request got no reply, or 503."""


def dot_of(handle):
    """The dot of the fact that minted a token, as lines of facts have it."""
    return "%d:%d" % struct.unpack_from(">HQ", base64.urlsafe_b64decode(handle), 2)


class Story(Asked):
    """The requests of one run, over one connection each, or over one that is kept.

    Once a request was sent that may end a token, nothing is claimed of the token until the reply.
    """

    def __init__(self, server, row):
        self.port, self.socket, self.inner = server.port, server.socket, server.inner
        self.row, self.patience, self.peer = row, SHORT, None
        self.facts = []  # of each fact that a reply promised: members of its line
        self.active = {}  # of each token that a reply gave: whether it is active
        self.silent = self.away = 0  # requests without a reply, and with 503
        self.region = 10  # the number of the last facts that filled half a part
        self.is_over = False  # whether a unit was lost at its last attempt
        self.units = [self.enrol, self.give_consent, self.refresh_login, self.end_login,
                      self.exchange, self.sign_out]
        if row.way.has_parts:
            self.units = [self.enrol, self.fill, self.give_consent, self.refresh_login, self.fill,
                          self.sign_out]

    def send(self, sent, patience=60):
        """Status and bytes of the reply to a request. A sealed server replies nothing but 503."""
        try:
            status, said = self.send_once(sent)
        except OSError as why:
            self.close()
            self.silent += 1
            raise Lost() from why
        if not self.row.way.is_kept or b"\r\nConnection: close\r\n" in said:
            self.close()
        if status == AWAY:
            self.away += 1
            raise Lost()
        if self.away:
            raise Broken("%r is answered %d behind 503" % (sent[:40], status))
        return status, said

    def send_once(self, sent):
        target = sent.split(b" ", 2)[1].decode()
        self.peer = self.peer or dial(self.place_of(target), self.patience)
        self.peer.settimeout(self.patience)
        self.peer.sendall(sent)
        said = self.hear(self.peer)
        if not is_whole(said):
            raise ConnectionError("no whole reply")
        return int(said[9:12]), said

    def close(self):
        if self.peer:
            self.peer.close()
        self.peer = None

    def promise(self, **members):
        self.facts.append(members)

    def run(self):
        """Runs each unit, at most twice, until the last attempt of one is lost."""
        with contextlib.closing(self):
            for unit in self.units:
                if not self.attempt(unit, SHORT) and not self.attempt(
                        unit, SHORT if self.row.is_lasting else LONG):
                    self.is_over = True
                    return

    def attempt(self, unit, patience):
        self.patience = patience
        try:
            unit()
            return True
        except Lost:
            return False

    def add(self, **fields):
        fields = {"scope": "read write", "redirects": REDIRECT_TEXT} | fields
        name = self.form("/admin/client", fields, status=201)["client_id"]
        self.promise(kind="client_added", dot=name[1:].replace("-", ":"))
        return name

    def enrol(self):
        self.client_id = self.add(kind="confidential", secret=SECRET)
        self.client, self.authorize = basic(self.client_id, SECRET), authorize(
            "/authorize", self.client_id)
        self.resource = basic(self.add(kind="resource", secret=WORD), WORD)

    def give_consent(self):
        fields = {"client_id": self.client_id, "subject": "ann", "scope": "read write"}
        name = self.form("/admin/consent", fields, status=201)["consent_id"]
        self.promise(kind="consent_given", dot=name[1:].replace("-", ":"))

    def claim(self, kind, tokens):
        """Notes the tokens of a reply, which the fact of this kind minted."""
        self.promise(kind=kind, dot=dot_of(tokens["access_token"]))
        for name in "access_token", "refresh_token":
            self.active[tokens[name]] = True

    def forget(self, *tokens):
        for it in tokens:
            self.active.pop(it, None)

    def log_in(self, subject=None):
        said = self.wanted(302, request("GET", self.authorize, b"", subject or self.subject))
        code = re.search(rb"[?&]code=([\w-]+)", said)[1].decode()
        self.promise(kind="code_issued", dot=dot_of(code))
        tokens = self.form("/token", {"grant_type": "authorization_code", "code": code,
                                      "redirect_uri": REDIRECT_TEXT}, self.client)
        self.claim("code_redeemed", tokens)
        return tokens

    def refresh_login(self):
        given = self.log_in()
        used = given["refresh_token"]
        self.forget(*given.values())
        tokens = self.refresh(used)
        self.claim("refresh_rotated", tokens)
        if not self.is_active(tokens["access_token"]):
            raise Broken("a new access token isn't active")

    def end_login(self):
        tokens = self.log_in()
        ended = tokens["refresh_token"]
        self.forget(*tokens.values())
        self.form("/revoke", {"token": ended}, self.client)
        self.promise(kind="token_revoked", token=dot_of(ended), token_kind="refresh_token")
        self.active |= {ended: False, tokens["access_token"]: False}

    def exchange(self):
        """A push of a fact of region 2, and the first page of all."""
        self.wanted(200, push(bundle([retirement((2, 1), (1, 99))])))
        self.promise(kind="client_retired", dot="2:1")
        said = self.wanted(200, request("POST", "/sync/pull", CURSOR + EMPTY_VECTOR))
        for it in facts_of(said.partition(b"\r\n\r\n")[2]):
            self.promise(dot="%d:%d" % struct.unpack_from(">HQ", it))

    def fill(self):
        """Pushes that fill a part of a log."""
        for _ in range(2):
            self.region += 1
            facts = [consent((self.region, it), (1, 99), b"a" * 128, b"b" * 1024)
                     for it in range(1, HALF + 1)]
            self.wanted(200, push(bundle(facts)))
            for it in range(1, HALF + 1):
                self.promise(kind="consent_given", dot="%d:%d" % (self.region, it))

    def sign_out(self):
        self.form("/admin/signout", {"subject": "bob"})
        self.promise(kind="subject_out", subject="bob")
