"""fronting: sites behind HAProxy, as examples/scale-out has it, without spread."""
import json
import re
import threading
import unittest

from lib.asking import basic
from lib.cases import Case
from lib.facts import ACCESS, handle
from lib.forging import REFUSED, TWICE, requests_of
from lib.fronts import FIRST, HAPROXY, Front, copy_maps
from lib.listing import operators
from lib.server import Tokend
from lib.waiting import until

ELSE = "AQIAAQAAAAAAAAABAAAAAAAAAAAAAAAAAAAAAAAAAAAAAAAA"  # a token of region 1, never made
NOT_FOUND = 404, b'{"error":"not_found"}'
INVALID = 400, b'{"error":"invalid_request"}'


class AskedFront(Front):
    """HAProxy before some sites, with the maps of the example."""

    def ask(self, method, path, body=None, is_inner=False, **fields):
        """Status, `Location` and body of a reply. A mapping is sent as a form."""
        it = Tokend(self.inner if is_inner else self.port)
        return it.ask_as(method, path, body, **fields)

    def by(self):
        """Whose requests each was, and which site replied, by HAProxy's log."""
        return re.findall(r"^\S+ (?:GET|POST) \S+ \d+ (?:kept-)?(\S+) ", self.said(), re.M)


@unittest.skipUnless(HAPROXY, "passed over: no HAProxy (apt-get install haproxy)")
class Fronts(Case):
    def setUp(self):
        super().setUp()
        self.sites = {name: self.site(FIRST[name], is_up=False, sockets=name == "two")
                      for name in ("one", "two")}
        self.assertTrue(until(lambda: all(it.is_up() for it in self.sites.values())))
        copy_maps(self.folder)
        self.front = AskedFront(self.folder, {name: it.place for name, it in self.sites.items()})
        self.addCleanup(self.front.stop)
        self.front.await_port()
        # three and four aren't there, and HAProxy has noticed
        self.assertTrue(until(lambda: "Server four/four is DOWN" in self.front.said()))

    def meet(self):
        """Brings the sites to the same facts."""
        status, _, errors = self.carry(*(it.url for it in self.sites.values()))
        self.assertEqual((status, errors), (0, ""))

    def enrol(self):
        """A client that both sites know, and dan's consent, which is made at his site, two."""
        self.client = self.member("client_id", self.front.ask("POST", "/admin/client", {
            "kind": "confidential", "secret": "s3cret", "scope": "read",
            "redirects": "https://a.test/"}, True))
        self.meet()
        self.give("dan")
        self.mine = {"Authorization": "Basic " + basic(self.client, "s3cret")}

    def give(self, subject):
        """Gives a consent at the subject's site, and returns its id."""
        return self.member("consent_id", self.front.ask("POST", "/admin/consent", {
            "client_id": self.client, "subject": subject, "scope": "read"}, True))

    def member(self, name, reply):
        found = re.search(b'"%s":"([^"]+)"' % name.encode(), reply[2])
        self.assertTrue(found, reply)
        return found[1].decode()

    def sign_in(self, subject="dan"):
        """A subject's access token and refresh token."""
        _, where, _ = self.front.ask(
            "GET", "/authorize?response_type=code&client_id=" + self.client,
            Authorization="Basic " + basic(subject, subject + "-word"))
        said = self.token({"grant_type": "authorization_code", "code": where.split("code=")[1]})
        return self.member("access_token", said), self.member("refresh_token", said)

    def token(self, form):
        return self.front.ask("POST", "/token", form, **self.mine)

    def refresh(self, token):
        return self.token({"grant_type": "refresh_token", "refresh_token": token})

    def introspect(self, body):
        return self.front.ask("POST", "/introspect", body, **self.mine)

    def is_active(self, token):
        status, _, said = self.introspect({"token": token})
        self.assertEqual(status, 200)
        return b'"active":true' in said

    def listed(self, subject, name=None):
        """The status and body of a subject's list, by the inner side or by a site itself."""
        path = "/admin/subject?subject=" + subject
        if name:
            return self.sites[name].ask(path)
        return self.front.ask("GET", path, is_inner=True)[::2]

    def logins(self, subject, name=None):
        """The ids and states of a subject's logins."""
        status, said = self.listed(subject, name)
        self.assertEqual(status, 200, said)
        return [(it["login_id"], it["state"]) for it in json.loads(said)["logins"]]

    def log_out(self, name=None, **form):
        """Status and body of the reply to a logout, by the inner side or by a site itself."""
        if name:
            return self.sites[name].ask_as("POST", "/admin/logout", form)[::2]
        return self.front.ask("POST", "/admin/logout", form, is_inner=True)[::2]

    def test_a_login_is_listed_and_ended_before_other_sites_know_it(self):
        """Each request comes three times: a front end that guesses would meet the other site."""
        self.enrol()
        self.give("ann")
        for subject, name, other in ("dan", "two", "one"), ("ann", "one", "two"):
            tokens = [self.sign_in(subject)[0] for _ in range(2)]
            for _ in range(3):
                ended, stays = (login for login, _ in self.logins(subject))
            for it in ended, stays:
                self.assertTrue(it.startswith("l%d-" % FIRST[name]))
            self.assertEqual(self.listed("%%%02x%s" % (ord(subject[0]), subject[1:])),
                             self.listed(subject, name))
            self.assertEqual(self.logins(subject, other), [])
            self.assertEqual(self.log_out(other, login_id=ended), NOT_FOUND)
            for _ in range(3):
                self.assertEqual(self.log_out(login_id=ended),
                                 (200, b'{"login_id":"%s"}' % ended.encode()))
            self.assertEqual([self.is_active(it) for it in tokens], [False, True])
            self.assertEqual(self.logins(subject), [(ended, "ended"), (stays, "active")])
            self.assert_soon(["%s/%s" % (name, name)] * 10, lambda: self.front.by()[-10:])
        self.meet()
        for subject in "dan", "ann":
            self.assertEqual(self.listed(subject, "one"), self.listed(subject, "two"))

    def test_changes_of_a_secret_go_to_the_site_of_the_client(self):
        """So each is of a turn of its own, and the other site takes it once it is handed over."""
        self.enrol()
        name, other = ("one", "two") if self.client.startswith("c1-") else ("two", "one")
        for number, secret in enumerate(("one", "two", "three")):
            said = self.front.ask("POST", "/admin/secret", {
                "client_id": self.client, "secret": secret}, is_inner=True)
            self.assertEqual(said[0], 201)
            self.assert_soon(["%s/%s" % (name, name)], lambda: self.front.by()[-1:])
            wanted = ["s3cret", "one", "two", "three"][number:number + 2]
            self.assertEqual(self.good(name), wanted)
        self.assertEqual(self.good(other), ["s3cret"])
        self.meet()
        self.assertEqual(self.good(other), ["two", "three"])

    def good(self, name):
        """The secrets of the client that a site takes."""
        return [it for it in ("s3cret", "one", "two", "three")
                if self.sites[name].ask_as("POST", "/revoke", {"token": "none"}, **{
                    "Authorization": "Basic " + basic(self.client, it)})[0] == 200]

    def administer(self, path, **form):
        """What the inner side replies to a request by root."""
        status, _, said = self.front.ask("POST", path, form, True, **{"X-Operator": "root"})
        self.assertIn(status, (200, 201), said)
        return next(iter(json.loads(said).values()))

    def named(self):
        """The kinds and operators of those facts of both sites that name one."""
        return sorted(operators(b"".join(page for it in self.sites.values()
                                         for page in it.pages())))

    def test_the_inner_side_passes_on_who_administers(self):
        self.enrol()
        self.sign_in()
        self.assertEqual(self.named(), [])
        added = self.administer("/admin/client", kind="public", scope="read",
                                redirects="https://a.test/")
        self.administer("/admin/retire", client_id=added)
        given = self.administer("/admin/consent", client_id=self.client, subject="ann",
                                scope="read")
        self.administer("/admin/withdraw", consent_id=given)
        self.administer("/admin/secret", client_id=self.client, secret="n3w")
        self.administer("/admin/logout", login_id=self.logins("dan")[0][0])
        self.administer("/admin/signout", subject="dan")
        self.assertEqual(self.named(), [(kind, "root") for kind in (
            "client_added", "client_retired", "consent_given", "consent_withdrawn", "secret_set",
            "subject_out", "token_revoked")])

    def test_no_operator_of_a_client_goes_on_to_a_site(self):
        """A site refuses a field that comes twice, on each path: HAProxy removes both."""
        self.enrol()
        dan = {"Authorization": "Basic " + basic("dan", "dan-word")}
        for method, path, form, fields, status in requests_of(
                self.client, dan, self.mine, *self.sign_in()):
            said = self.sites["two"].ask_as(method, path, form, **fields, **TWICE)
            self.assertEqual(said[::2], REFUSED, path)
            said = self.front.ask(method, path, form, **fields, **TWICE)
            self.assertEqual(said[0], status, path)
        self.assertEqual(self.named(), [])

    def test_unknown_logins_and_requests_that_name_none(self):
        for login, where in ("l1-999", "one/one"), ("l%d-999" % FIRST["two"], "two/two"):
            self.assertEqual(self.log_out(login_id=login), NOT_FOUND)
            self.assert_soon([where], lambda: self.front.by()[-1:])
        for login in "l65535-1", "g1-1", "ann":
            self.assertEqual(self.log_out(login_id=login), NOT_FOUND)
        for form in {}, {"login_id": ""}:
            self.assertEqual(self.log_out(**form), INVALID)
        for subject in "", "dan&subject=dan":
            self.assertEqual(self.listed(subject), INVALID)
        for cursor in "logins_after=g1-1", "consents_after=l1-1":
            self.assertEqual(self.listed("dan&" + cursor), NOT_FOUND)

    def test_no_spelling_leads_to_a_site_that_does_not_know(self):
        self.enrol()
        token = self.sign_in()[0]
        self.meet()
        self.front.ask("POST", "/revoke", {"token": token}, **self.mine)
        mine = b"token=" + token.encode()
        for body in (b"token=&" + mine, b"tok%65n=" + mine[6:], b"a=;token=" + mine[6:],
                     b"a=;&" + mine, b"token=" + ELSE.encode() + b"&" + mine, b"token&" + mine,
                     b"x=\0&token=&" + mine, b"x=\0&tok%65n=" + mine[6:], b"x=\0;" + mine,
                     b"token=&x=\n&" + mine, b"\xff&token=&" + mine, b"&&" + mine, b"=&" + mine,
                     b"Token=" + ELSE.encode() + b"&" + mine, b"?token=" + ELSE.encode() + b"&"
                     + mine, b"token=&x=" + b"a" * 16000 + b"&" + mine,
                     b"token=&" + b"a=b&" * 4000 + mine, mine + b"\0", mine + b"&token="):
            status, _, said = self.introspect(body)
            self.assertIn((status, said), ((400, b'{"error":"invalid_request"}'),
                                           (200, b'{"active":false}')), body[:80])
        self.assertEqual(self.introspect(b"x=%00%26&" + mine)[::2], (200, b'{"active":false}'))

    def test_guesses_of_a_secret_are_refused(self):
        """A right one too, so that none is found; who only has no session isn't counted."""
        self.enrol()
        for _ in range(30):
            self.assertEqual(self.front.ask("GET", "/authorize")[0], 401)
        self.assertEqual(self.introspect({"token": ELSE})[0], 200)
        said = [self.front.ask("POST", "/introspect", {"token": ELSE}, Authorization="Basic "
                               + basic(self.client, "guess%d" % number))[0] for number in range(60)]
        self.assertEqual((set(said), said[:20]), ({401, 429}, [401] * 20))
        self.assertLess(said.count(401), 25)
        self.assertEqual(self.introspect({"token": ELSE})[0], 429)
        self.assertEqual(self.token({"grant_type": "refresh_token", "refresh_token": "x"})[0], 429)

    def test_bodies_without_length_or_too_long(self):
        self.enrol()
        said = self.front.ask("POST", "/introspect", b"7\r\ntoken=x\r\n0\r\n\r\n",
                              **{"Transfer-Encoding": "chunked"}, **self.mine)
        self.assertEqual(said[0], 411)
        self.assertEqual(self.introspect(b"token=" + b"a" * 16379)[0], 413)
        self.assertEqual(self.introspect(b"token=" + b"a" * 16378)[0], 200)

    def test_the_next_site_stands_in_and_the_lost_one_comes_back(self):
        self.enrol()
        access, refresh = self.sign_in()
        self.meet()
        ended = threading.Event()
        replies = []

        def go_on():
            while not ended.is_set():
                replies.append(self.introspect({"token": access})[0])

        threads = [threading.Thread(target=go_on) for _ in range(4)]
        for it in threads:
            it.start()
        self.assertTrue(until(lambda: len(replies) > 20))
        self.sites["two"].stop()
        lost = len(replies)
        self.assertTrue(until(lambda: len(replies) > lost + 50))
        ended.set()
        for it in threads:
            it.join()
        self.assertEqual(set(replies), {200})
        self.assertEqual(set(self.front.by()[-20:]), {"two/one"})
        status, *_, said = self.refresh(refresh)
        self.assertEqual(status, 200)
        self.assertEqual(self.refresh(json.loads(said)["refresh_token"])[0], 200)
        self.assertEqual(self.refresh(refresh)[0], 400)
        self.assertFalse(self.is_active(access))
        self.again(self.sites["two"], self.sites["one"])
        self.assertTrue(until(lambda: self.is_active(access) or self.front.by()[-1] == "two/two"))
        self.assertFalse(self.is_active(access))
        self.assertEqual(self.front.by()[-1], "two/two")

    def test_a_site_whose_log_fails_is_out(self):
        two = self.sites["two"]
        two.stop()
        self.assertTrue(until(lambda: "Server two/two is DOWN" in self.front.said()))
        two.begin(program=self.small(), script="../starter/tokend-start")
        self.assertTrue(until(lambda: "Server two/two is UP" in self.front.said()))
        self.enrol()
        self.meet()
        statuses = []
        for _ in range(20):
            _, where, _ = self.front.ask("GET", "/authorize?response_type=code&client_id="
                                         + self.client, Authorization="Basic "
                                         + basic("dan", "dan-word"))
            code = where.partition("code=")[2]
            statuses.append(self.token({"grant_type": "authorization_code", "code": code})[0])
        self.assertEqual(two.ask("/sync/vector")[0], 503)
        self.assertIn("fault log", two.said())
        self.assertEqual(statuses[-8:], [200] * 8)
        self.assertLessEqual(len([it for it in statuses if it != 200]), 1, statuses)
        self.assertEqual(self.front.by()[-1], "one/one")


@unittest.skipUnless(HAPROXY, "passed over: no HAProxy (apt-get install haproxy)")
class Kept(Case):
    """Connections between HAProxy and a stand-in for a site, which is asked about its tokens."""

    TOKEN = handle(ACCESS, (FIRST["three"], 1))
    TIMES = 30

    def setUp(self):
        super().setUp()
        copy_maps(self.folder)
        self.lost = set()  # paths whose requests get no reply
        self.site = self.peer(lambda path, _: None if path in self.lost else b"{}")
        self.front = AskedFront(self.folder, {"three": self.site.server.server_port})
        self.addCleanup(self.front.stop)
        self.front.await_port()
        self.assertTrue(until(lambda: "/sync/vector" in self.site.asked))

    def status(self, path):
        form = {"token": self.TOKEN, "refresh_token": self.TOKEN, "grant_type": "refresh_token"}
        if path == "/token":
            del form["token"]
        return self.front.ask("POST", path, form)[0]

    def connections(self, path):
        """How many connections some requests take, beside those of HAProxy's checks."""
        def made():
            return self.site.connections - self.site.asked.count("/sync/vector")
        before = made()
        for _ in range(self.TIMES):
            self.assertEqual(self.status(path), 200)
        return made() - before

    def test_introspections_alone_share_connections(self):
        self.assertLessEqual(self.connections("/introspect"), 3)
        for path in "/token", "/revoke":
            self.assertGreaterEqual(self.connections(path), self.TIMES - 1)
            self.assertEqual(self.site.asked.count(path), self.TIMES)

    def test_a_request_to_token_is_never_sent_twice(self):
        self.lost.add("/token")
        self.assertEqual(self.status("/token"), 502)
        self.assertEqual(self.site.asked.count("/token"), 1)

    def test_an_introspection_is_tried_again(self):
        """As if the site had ended while a kept connection was used."""
        self.assertEqual(self.status("/introspect"), 200)
        self.lost.add("/introspect")
        self.assertIn(self.status("/introspect"), (502, 503))
        self.assertGreater(self.site.asked.count("/introspect"), 2)
