"""fronted: cells behind HAProxy, as `cells front` makes it."""
import http.client
import json
import os
import re
import signal
import ssl
import threading
import time
import unittest

from lib.asking import ask_over, basic
from lib.facts import clients
from lib.fronts import HAPROXY
from lib.server import Tokend
from lib.tls import OPENSSL, make_certificate
from lib.waiting import free_port, until
from moved import REDIRECT, Subjects
from tables import slot_of

USERS = ["user-%d" % it for it in range(64)]


@unittest.skipUnless(HAPROXY and OPENSSL, "passed over (apt-get install haproxy openssl)")
class FrontedCase(Subjects):
    """A test with HAProxy, and users who can sign in there."""

    def setUp(self):
        super().setUp()
        self.front, self.inner = free_port(), free_port()
        self.file = lambda name: os.path.join(self.state, name)
        make_certificate(self.state)
        with open(self.file("front.pem"), "wb") as file:
            for name in "cert.pem", "key.pem":
                with open(self.file(name), "rb") as part:
                    file.write(part.read())
        self.tls = ssl.create_default_context(cafile=self.file("cert.pem"))
        with open(self.file("users"), "w", encoding="ascii") as file:
            file.writelines("    user %s insecure-password word\n" % it for it in USERS)
        self.processes, self.asked = set(), 0
        self.addCleanup(self.end)

    def variables(self):
        return super().variables() | {"FRONT": str(self.front), "INNER": str(self.inner),
                                      "RATE": "1000000"}

    def enrol(self, **given):
        """A client that all sites know."""
        said = self.ask("POST", "/admin/client", {
            "kind": "confidential", "secret": "s3cret", "scope": "read write",
            "redirects": REDIRECT}, **given)
        self.client = json.loads(said[2])["client_id"]
        self.mine = {"Authorization": "Basic " + basic(self.client, "s3cret")}

    def load(self):
        """Has HAProxy started, or read its files anew."""
        self.done("front")
        self.note()

    def note(self):
        """Notes the process of HAProxy, if there is one."""
        if os.path.exists(self.file("haproxy.pid")):
            with open(self.file("haproxy.pid"), encoding="ascii") as file:
                self.processes.add(int(file.read()))

    def end(self):
        """Kills all processes of the cells."""
        self.note()  # `cells retire` starts one too
        for it in self.processes:
            try:
                os.kill(it, signal.SIGKILL)
            except ProcessLookupError:
                pass

    def link(self):
        return http.client.HTTPSConnection("127.0.0.1", self.front, timeout=30, context=self.tls)

    def ask(self, method, path, form=None, is_inner=False, link=None, **fields):
        """Status, `Location` and body of a reply."""
        one = link or (Tokend(self.inner).link() if is_inner else self.link())
        self.asked += one.port in (self.front, self.inner)
        said = ask_over(one, method, path, form, **fields)
        if not link:
            one.close()
        return said

    def logged(self):
        with open(self.file("haproxy.out"), encoding="utf-8") as file:
            return re.findall(r"^\S+ (?:GET|POST) \S+ \d+ (?:kept-)?(\S+) ", file.read(),
                              re.M)

    def by(self):
        """Which backend and site replied to each request. HAProxy logs it after its reply."""
        self.assertTrue(until(lambda: len(self.logged()) >= self.asked))
        self.assertEqual(len(self.logged()), self.asked)
        return self.logged()

    def give(self, subject):
        """Gives a consent by the inner side, and returns its id."""
        said = self.ask("POST", "/admin/consent", {
            "client_id": self.client, "subject": subject, "scope": "read write"}, is_inner=True)
        return json.loads(said[2])["consent_id"]

    def sign_in(self, subject, link=None):
        """The access token and refresh token of a login."""
        _, where, _ = self.ask(
            "GET", "/authorize?response_type=code&client_id=" + self.client, link=link,
            Authorization="Basic " + basic(subject, "word"))
        said = self.ask("POST", "/token", {
            "grant_type": "authorization_code", "code": where.partition("code=")[2]}, **self.mine)
        self.assertEqual(said[0], 200, (where, said))
        found = json.loads(said[2])
        return found["access_token"], found["refresh_token"]

    def introspect(self, token, link=None):
        said = self.ask("POST", "/introspect", {"token": token}, link=link, **self.mine)
        return said[0], json.loads(said[2])["active"] if said[0] == 200 else None

    def of_site(self, name):
        """A subject of a site."""
        slots = {"a1": range(16), "a2": range(16, 32), "b1": range(32, 64)}[name]
        return next(it for it in USERS if slot_of(it) in slots)


class Celled(FrontedCase):
    """A test with two cells behind HAProxy, and a client that all sites know."""

    def setUp(self):
        super().setUp()
        self.up("dir1", "a1", "a2", "b1")
        self.load()
        self.enrol(is_inner=True)
        self.done("carry", "--once")


class Fronted(Celled):
    def test_each_request_goes_to_its_cell(self):
        ids = {}
        for name, first in ("a1", 100), ("a2", 200), ("b1", 300):
            user = self.of_site(name)
            ids[name] = self.give(user)
            self.assertTrue(ids[name].startswith("g%d-" % first), ids)
            access, refresh = self.sign_in(user)
            self.assertEqual(self.introspect(access), (200, True))
            said = self.ask("POST", "/token", {"grant_type": "refresh_token",
                                               "refresh_token": refresh}, **self.mine)
            self.assertEqual(said[0], 200)
            self.assertEqual(self.ask("POST", "/revoke", {"token": access}, **self.mine)[0], 200)
            self.assertEqual(self.introspect(access), (200, False))
            self.assertEqual(set(self.by()[-6:]), {"%s/%s" % (name, name)})
        self.assertEqual(self.ask("POST", "/admin/withdraw", {"consent_id": ids["b1"]},
                                  is_inner=True)[0], 200)
        self.assertEqual(self.by()[-1], "b1/b1")

    def test_clients_and_sign_outs_go_to_the_directory(self):
        for method, path, form in (
                ("POST", "/admin/signout", {"subject": "ann"}),
                ("GET", "/admin/client?client_id=" + self.client, None),
                ("POST", "/admin/secret", {"client_id": self.client, "secret": "s3cret"}),
                ("POST", "/admin/retire", {"client_id": self.client})):
            self.assertEqual(self.ask(method, path, form, is_inner=True)[0], 200)
            self.assertEqual(self.by()[-1], "directory/dir1")
        self.assertEqual(self.ask("GET", "/sync/vector", is_inner=True)[0], 404)
        for path in "/admin/client", "/sync/vector":
            self.assertEqual(self.ask("GET", path)[0], 403)

    def change(self, secret, **given):
        """Changes the client's secret by the inner side."""
        form = {"client_id": self.client, "secret": secret} | given
        self.assertEqual(self.ask("POST", "/admin/secret", form, is_inner=True)[0], 201)
        self.assertEqual(self.by()[-1], "directory/dir1")

    def authenticated(self, secret):
        """The sites of the cells that take this secret."""
        mine = {"Authorization": "Basic " + basic(self.client, secret)}
        return [name for name in ("a1", "a2", "b1")
                if self.server(name).ask_as("POST", "/revoke", {"token": "none"}, **mine)[0] == 200]

    def test_a_secret_that_was_changed_counts_in_each_cell_once_it_is_carried(self):
        self.change("one")
        self.assertEqual(self.authenticated("one"), [])
        self.done("carry", "--once")
        for secret in "s3cret", "one":
            self.assertEqual(self.authenticated(secret), ["a1", "a2", "b1"])
        self.change("two", old="ended")
        self.assertEqual(self.authenticated("one"), ["a1", "a2", "b1"])
        self.done("carry", "--once")
        for secret in "s3cret", "one":
            self.assertEqual(self.authenticated(secret), [])
        self.assertEqual(self.authenticated("two"), ["a1", "a2", "b1"])

    def test_no_spelling_leads_to_another_cell(self):
        user = self.of_site("b1")
        self.give(user)
        token = self.sign_in(user)[0].encode()
        other = token[:2] + b"IAZA" + token[6:]  # of the number 100, cell a
        for body in (b"token=&token=" + token, b"tok%65n=" + token, b"a=;token=" + token,
                     b"token=" + other + b"&token=" + token):
            self.assertEqual(self.ask("POST", "/introspect", body, **self.mine)[::2],
                             (400, b'{"error":"invalid_request"}'))
        self.assertEqual(self.introspect(token.decode()), (200, True))
        self.assertEqual(self.introspect(other.decode()), (200, False))
        self.assertEqual(self.by()[-2:], ["b1/b1", "a1/a1"])

    def test_reloads_and_moves_under_load_lose_no_request(self):
        for name in "a1", "a2", "b1":
            self.give(self.of_site(name))
        tokens = [self.sign_in(self.of_site(it))[0] for it in ("a1", "a2", "b1")]
        over, good, bad = threading.Event(), [], []

        def go_on(is_kept):
            """Introspects tokens until it is over. A reply that isn't active is kept in `bad`."""
            link = self.link() if is_kept else None
            while not (over.is_set() or bad):
                for it in tokens:
                    try:
                        said = self.introspect(it, link)
                    except (OSError, http.client.HTTPException) as why:
                        said = repr(why)
                    (good if said == (200, True) else bad).append(said)
            if link:
                link.close()

        threads = [threading.Thread(target=go_on, args=[at == 0]) for at in range(4)]
        for it in threads:
            it.start()
        for number in range(4):
            before = len(good)
            self.assertTrue(until(lambda before=before: len(good) > before + 40 or bad))
            if number % 2:
                self.done("move", "b1" if number == 1 else "a1", "0-15")
            self.load()
        before = len(good)
        self.assertTrue(until(lambda: len(good) > before + 40 or bad))
        over.set()
        for it in threads:
            it.join()
        self.assertEqual(bad, [])
        self.assertEqual(len(self.processes), 5)

    def test_a_move_counts_at_once_on_a_kept_connection(self):
        user, link = self.of_site("a1"), self.link()
        self.give(user)
        old = self.sign_in(user, link)
        self.assertEqual(self.by()[-2:], ["a1/a1", "a1/a1"])
        self.assertIn("with 1 consents", self.done("move", "b1", str(slot_of(user))))
        new = self.sign_in(user, link)
        self.assertEqual(self.by()[-2:], ["b1/b1", "b1/b1"])
        link.close()
        self.assertEqual([self.introspect(it[0]) for it in (old, new)], [(200, True)] * 2)
        self.assertEqual(self.by()[-2:], ["a1/a1", "b1/b1"])
        time.sleep(1.1)  # a code of the same second would be dead as well
        self.done("sign-out", user)
        self.assertEqual([self.introspect(it[0]) for it in (old, new)], [(200, False)] * 2)

    def test_a_cell_that_is_down_costs_its_own_requests_alone(self):
        users = [self.of_site("a1"), self.of_site("b1")]
        for it in users:
            self.give(it)
        a_token, b_token = (self.sign_in(it)[0] for it in users)
        self.kill("b1")
        self.assertTrue(until(lambda: self.introspect(b_token) == (503, None)))
        self.assertEqual(self.introspect(a_token), (200, True))
        self.assertEqual(self.ask("GET", "/authorize?response_type=code&client_id=" + self.client,
                                  Authorization="Basic " + basic(users[1], "word"))[0], 503)
        for user, status in zip(users, (200, 503)):
            self.assertEqual(self.ask("GET", "/admin/subject?subject=" + user, is_inner=True)[0],
                             status)
        self.up("b1")
        self.assertTrue(until(lambda: self.introspect(b_token) == (200, True)))

    def test_a_move_to_a_site_that_haproxy_has_not_read(self):
        with open(self.path, "a", encoding="ascii") as file:
            file.write("c1 c %d 400-499 -\n" % free_port())
        before = self.text()
        words = "move", "--without-consents", "c1", "0-15"
        self.assertEqual(self.cells(*words), (
            1, "", "cells: HAProxy doesn't know c1 yet: `cells front` first\n"))
        self.assertEqual(self.text(), before)
        self.up("c1")
        self.load()
        self.assertEqual(self.done(*words), "slots 0-15 are at c1, with 0 consents\n")

    def test_files_that_haproxy_refuses_change_nothing(self):
        with open(self.file("users"), "a", encoding="ascii") as file:
            file.write("    nonsense\n")
        status, _, errors = self.cells("front")
        self.assertEqual(status, 1)
        self.assertRegex(errors, r"^cells: HAProxy refuses \S+/haproxy.cfg.new: see ")
        self.assertEqual(self.ask("GET", "/")[0], 404)
        with open(self.file("haproxy.cfg"), encoding="utf-8") as file:
            self.assertNotIn("nonsense", file.read())

    def test_a_cell_is_retired_and_its_numbers_are_judged(self):
        user = self.of_site("a1")
        self.give(user)
        access, _ = self.sign_in(user)
        self.done("move", "b1", "0-31")
        self.kill("b1")
        self.accepts = "1-65535"  # so that it takes a fact of another cell
        self.up("b1")
        self.assertEqual(self.server("b1").push(clients(150, 1))[0], 200)
        self.assertEqual(self.done("retire", "--now", "a"),
                         "a is out: stop a1 a2\n100-199: never again: facts at b1\n"
                         "200-299: may be used again\n")
        self.assertEqual(self.introspect(access), (200, False))
        self.assertNotIn("\na1 ", self.text())
        self.assertEqual(self.by()[-1], "any/b1")


class Grown(FrontedCase):
    sites = ("one directory 1-99 -", "two directory 100-199 -", "a1 a 200-299 0-31",
             "b1 b 300-399 32-63")

    def site_link(self, name):
        return self.server(name).link()

    def test_two_sites_become_the_directory_of_two_cells(self):
        self.up("one", "two")
        self.enrol(link=self.site_link("one"))
        user, consents, old = USERS[0], [], {}
        for name in "one", "two":
            self.assertEqual(self.carry(*(self.server(it).url for it in ("one", "two")))[0], 0)
            given = {"client_id": self.client, "subject": user, "scope": "read write"}
            consents.append(json.loads(self.form(name, "/admin/consent", **given))["consent_id"])
            _, where, _ = self.ask(
                "GET", "/authorize?response_type=code&client_id=" + self.client,
                link=self.site_link(name), **{"X-Subject": user})
            old[name] = json.loads(self.ask("POST", "/token", {
                "grant_type": "authorization_code", "code": where.partition("code=")[2]},
                link=self.site_link(name), **self.mine)[2])
        self.up("a1", "b1")
        self.done("carry", "--once")
        self.load()
        for name, it in old.items():
            said = self.ask("POST", "/token", {
                "grant_type": "refresh_token", "refresh_token": it["refresh_token"]}, **self.mine)
            self.assertEqual((said[0], self.by()[-1]), (200, "%s/%s" % (name, name)))
        new, _ = self.sign_in(user)  # no consent is asked for
        home = "a1/a1" if slot_of(user) < 32 else "b1/b1"
        self.assertEqual((self.introspect(new), self.by()[-1]), ((200, True), home))
        for it in consents:
            self.assertEqual(self.ask("POST", "/admin/withdraw", {"consent_id": it},
                                      is_inner=True)[0], 200)
        self.done("carry", "--once")
        for token in new, *(it["access_token"] for it in old.values()):
            self.assertEqual(self.introspect(token), (200, False))
        self.assertEqual(self.done("check"), "")
