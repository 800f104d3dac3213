"""standing: attacks that work today. docs/SECURITY.md lists each as not stopped.

A test that fails here is good news: then the line there is wrong, and both are to be mended.
Refused has the attacks that an option stops: they are tried with the option.
"""
import base64
import hashlib
import os
import re
import urllib.parse

from lib.cases import Case
from lib.facts import MARK, bundle, client, clients, dot, mark, retirement, secret_set, text
from lib.waiting import until

STARTER = "../starter/tokend-start"
GREATEST = 253_402_300_799  # the last moment there is
BUSY = (503, b'{"error":"temporarily_unavailable"}')


def handle(region, serial):
    """The text of an access token, of random words that nobody made."""
    said = b"\1\2" + region.to_bytes(2, "big") + serial.to_bytes(8, "big") + os.urandom(24)
    return base64.urlsafe_b64encode(said).decode()


class ByStrangers(Case):
    """By whoever reaches the front end."""

    def test_a_revocation_of_an_invented_token_stays(self):
        """The id of a public client is enough, and each makes a fact that no prune drops."""
        it = self.tokend(1, *clients(3, 1))
        for number in range(1, 11):
            said = it.ask("/revoke", ("client_id=c3-1&token=" + handle(9, number)).encode())
            self.assertEqual(said, (200, b""))
        self.assertEqual(len(it.held()), 11)


class ByOperators(Case):
    """What a registration lets through."""

    def test_a_redirection_uri_of_any_scheme(self):
        it = self.tokend(1)
        for uri in ("javascript:alert(1)", "data:text/html,x", "file:///x", "vbscript:x",
                    "http://app.example/cb"):
            form = urllib.parse.urlencode({"kind": "public", "scope": "read", "redirects": uri})
            self.assertEqual(it.ask("/admin/client", form.encode())[0], 201, uri)


    def test_with_redirects_none_of_these_is_registered(self):
        it = self.tokend(1, options=("--redirects", "https,loopback,app"))
        for uri in ("javascript:alert(1)", "data:text/html,x", "file:///x", "vbscript:x",
                    "http://app.example/cb"):
            form = urllib.parse.urlencode({"kind": "public", "scope": "read", "redirects": uri})
            said = it.ask("/admin/client", form.encode())
            self.assertEqual(said, (400, b'{"error":"invalid_request"}'), uri)
        self.assertEqual(it.held(), [])


class ByPeers(Case):
    """By whoever may push."""

    def test_a_horizon_ahead_stops_clients_and_is_carried_on(self):
        one, two = self.tokend(1), self.tokend(2)
        self.assertEqual(one.push([mark(9, 1)], GREATEST)[0], 200)
        self.assertEqual(self.carry(one.url, two.url)[0], 0)
        for it in one, two:
            self.assertEqual(it.ask("/admin/client?client_id=c1-1"), BUSY)
            self.assertEqual(it.ask("/sync/vector")[0], 200)

    def test_a_forged_resource_server_introspects(self):
        it = self.tokend(1)
        secret = hashlib.sha256(b"guess").digest()
        fact = dot((3, 1)) + b"\1\2" + secret + text(b"read") + b"\1" + text(b"https://a.test/")
        self.assertEqual(it.push([fact])[0], 200)
        form = b"client_id=c3-1&client_secret=guess&token=x"
        self.assertEqual(it.ask("/introspect", form), (200, b'{"active":false}'))

    def test_a_secret_of_the_last_turn_takes_a_client_over(self):
        it = self.tokend(1)
        self.login(it)
        self.assertEqual(it.push([secret_set((3, 1), (1, 1), 1_000_000, b"guess")])[0], 200)
        for secret, status in (b"guess", 200), (b"s3cret", 401):
            form = b"client_id=c1-1&token=x&client_secret=" + secret
            self.assertEqual(it.ask("/introspect", form)[0], status)
        for old in b"", b"&old=ended":
            form = b"client_id=c1-1&secret=n3w" + old
            self.assertEqual(it.ask("/admin/secret", form)[0], 400)

    def redeem(self, it, code):
        """What a redemption of the code gets, by the client c1-1."""
        form = {"grant_type": "authorization_code", "code": code, "client_id": "c1-1",
                "client_secret": "s3cret"}
        return it.ask("/token", urllib.parse.urlencode(form).encode())[1].decode()

    def is_active(self, it, token):
        form = {"token": token, "client_id": "c1-1", "client_secret": "s3cret"}
        said = it.ask("/introspect", urllib.parse.urlencode(form).encode())[1]
        return b'"active":true' in said

    def login(self, it):
        """A code of ann, for a client that is added."""
        it.ask("/admin/client", b"kind=confidential&secret=s3cret&scope=read"
               b"&redirects=https://a.test/")
        it.ask("/admin/consent", b"client_id=c1-1&subject=ann&scope=read")
        _, place, _ = it.ask_as("GET", "/authorize?response_type=code&client_id=c1-1",
                                **{"X-Subject": "ann"})
        return place.partition("code=")[2]

    def test_a_mark_of_a_reuse_revives_its_family(self):
        it = self.tokend(1)
        code = self.login(it)
        token = re.search('"access_token":"([^"]+)"', self.redeem(it, code))[1]
        self.assertTrue(self.is_active(it, token))
        before = it.held()
        self.assertIn("invalid_grant", self.redeem(it, code))
        self.assertFalse(self.is_active(it, token))
        [reuse] = set(it.held()) - set(before)
        self.assertEqual(it.push([reuse[:MARK]], 0)[0], 200)
        self.assertTrue(self.is_active(it, token))

    def test_a_mark_of_a_revocation_revives_its_token(self):
        it = self.tokend(1)
        token = re.search('"access_token":"([^"]+)"', self.redeem(it, self.login(it)))[1]
        before = it.held()
        form = {"token": token, "client_id": "c1-1", "client_secret": "s3cret"}
        self.assertEqual(it.ask("/revoke", urllib.parse.urlencode(form).encode())[0], 200)
        self.assertFalse(self.is_active(it, token))
        [revocation] = set(it.held()) - set(before)
        self.assertEqual(it.push([revocation[:MARK]], 0)[0], 200)
        self.assertTrue(self.is_active(it, token))

    def test_a_mark_of_a_fact_to_come_keeps_that_fact_out(self):
        one, two = self.tokend(1), self.tokend(2)
        self.assertEqual(two.push([mark(1, 1)], 0)[0], 200)
        self.assertEqual(one.ask("/admin/signout", b"subject=ann")[0], 200)
        self.assertEqual(self.carry(one.url, two.url)[0], 0)
        self.assertEqual(two.page().facts, 0)

    def test_a_fact_near_the_end_of_a_range_uses_all_numbers_up(self):
        """A start counts a number up to 64 above all others, if a peer took facts of it."""
        one, two = self.site(1, count=9, script=STARTER), self.tokend(50, *clients(9, 1))
        one.stop()
        again = one.begin(script=STARTER, before=("env", "TOKEND_PEERS=" + two.url))
        self.assertEqual(again.child.wait(30), 5)

    def test_marks_take_memory_under_any_number(self):
        it = self.tokend(1)
        for number in range(2, 102):
            self.assertEqual(it.push([mark(number, 2**62)], 0), (200, b'{"took":1}'))

    def test_two_facts_at_one_dot_stay_apart(self):
        one, two = self.tokend(1, client(3, 1, b"read")), self.tokend(2, client(3, 1, b"write"))
        self.assertEqual(self.carry(one.url, two.url)[0], 0)
        self.assertNotEqual(one.held(), two.held())


class Unseen(Case):
    """By whoever reaches the front end, at servers with --revoke-unseen."""

    def served(self, choice):
        """A server that holds a public client c3-1 and a confidential one, c3-2."""
        secret = hashlib.sha256(b"s3cret").digest()
        fact = dot((3, 2)) + b"\1\1" + secret + text(b"read") + b"\1" + text(b"https://a.test/")
        return self.tokend(1, *clients(3, 1), fact, options=("--revoke-unseen", choice))

    def revoke(self, it, client):
        return it.ask("/revoke", ("client_id=%s&token=%s" % (client, handle(9, 1))).encode())

    def test_a_public_client_makes_no_revocation_of_an_invented_token(self):
        for choice in ("authenticated", "none"):
            it = self.served(choice)
            for _ in range(10):
                self.assertEqual(self.revoke(it, "c3-1"), BUSY)
            self.assertEqual(len(it.held()), 2)

    def test_a_client_with_a_secret_makes_one_unless_no_client_may(self):
        it = self.served("authenticated")
        self.assertEqual(self.revoke(it, "c3-2&client_secret=s3cret"), (200, b""))
        self.assertEqual(len(it.held()), 3)
        it = self.served("none")
        self.assertEqual(self.revoke(it, "c3-2&client_secret=s3cret"), BUSY)
        self.assertEqual(len(it.held()), 2)


class Consents(Case):
    """By a user who signed in, whose page passes on what it is sent."""

    def given(self, *options):
        """How many facts 100 requests for the same consent make."""
        it = self.tokend(1, *clients(3, 1), options=options)
        for _ in range(100):
            said = it.ask("/admin/consent", b"client_id=c3-1&subject=ann&scope=read")
            self.assertIn(said, ((201, said[1]), (200, b'{"consent_id":"g1-1"}')))
        return len(it.held()) - 1

    def test_a_consent_that_is_given_again_makes_a_fact(self):
        self.assertEqual(self.given(), 100)

    def test_a_consent_that_is_held_makes_none(self):
        self.assertEqual(self.given("--consent", "held"), 1)


class Refused(Case):
    """By whoever may push, at servers with --ahead refused."""

    def served(self, region, *items):
        return self.tokend(region, *items, options=("--ahead", "refused"))

    def test_a_horizon_ahead_changes_nothing(self):
        it = self.served(1, *clients(3, 1))
        before = it.vector()
        self.assertEqual(it.push([mark(9, 1)], GREATEST), (409, b'{"error":"horizon_ahead"}'))
        self.assertEqual(it.vector(), before)
        self.assertEqual(it.ask("/admin/client?client_id=c3-1")[0], 200)

    def test_a_stopped_region_stops_no_other(self):
        one, two = self.tokend(1), self.served(2)
        self.assertEqual(one.push([mark(9, 1)], GREATEST)[0], 200)
        self.assertEqual(one.push([client(3, 1)])[0], 200)
        status, output, errors = self.carry(two.url, one.url)
        self.assertEqual(status, 1)
        self.assertIn("takes no marks yet: 409 horizon_ahead", errors)
        self.assertIn("1 facts in 1 pages, 1 new, 1 waiting, 1 marks", output)
        self.assertEqual(two.held(), [client(3, 1)])
        self.assertEqual(two.ask("/admin/client?client_id=c3-1")[0], 200)


class OutOfRange(Case):
    """By whoever may push, at sites of tokend-start, which passes --range."""

    REFUSED = 409, b'{"error":"out_of_range"}'

    def again(self, site, *before):
        """The region number of the next run, by the id of a client that is added."""
        site.stop()
        site.begin(script=STARTER, before=before)
        self.assertTrue(until(site.is_up), site.said())
        said = site.ask("/admin/client", b"kind=public&scope=read&redirects=https://a.test/")[1]
        return int(re.search(rb"c([0-9]+)-", said)[1])

    def test_a_fact_of_29_bytes_uses_no_number_up(self):
        sent = bundle([retirement((8191, 1), (1, 1))])
        self.assertEqual(len(sent), 29)
        it = self.site(1, count=8191, script=STARTER)
        self.assertEqual(it.ask("/sync/push", sent), self.REFUSED)
        self.assertEqual(it.held(), [])
        self.assertEqual(self.again(it), 2)

    def test_a_fact_that_a_peer_took_uses_no_number_up(self):
        one, two = self.site(1, count=8191, script=STARTER), self.tokend(50, *clients(8191, 1))
        self.assertEqual(self.again(one, "env", "TOKEND_PEERS=" + two.url), 2)
        self.assertIn("there are facts of the number 8191, far above all others", one.said())

    def test_marks_of_all_numbers_use_none_up(self):
        """A mark of each number, in 794 KB, to a site that knows which numbers there are."""
        accept = "env", "TOKEND_ACCEPT=1-8191,50000-50009"
        it = self.site(1, count=8191, script=STARTER, before=accept)
        for first in range(2, 65536, 128):
            sent = [mark(number, 1) for number in range(first, min(first + 128, 65536))]
            self.assertEqual(it.push(sent, 0), self.REFUSED)
        self.assertEqual(it.held(), [])
        self.assertEqual(it.push([mark(number, 1) for number in range(50000, 50010)], 0)[0], 200)
        self.assertEqual(self.again(it, *accept), 2)
