"""repeats: a refresh that is repeated gets its reply again, for so long, and else is a reuse."""
import json
import time
import unittest

from lib.asking import body_of, request
from shared import Running, post, refreshing, rest_of

MOST = 4096  # refreshes that may be repeated
GONE = 400, "invalid_grant"


def said_in(reply):
    return json.loads(body_of(reply))


class Repeats(unittest.TestCase):
    def started(self, *options, **more):
        return self.enterContext(Running(*options, **more)).enrol()

    def refreshed(self, server):
        """A refresh of a new login, and what its reply says."""
        sent = refreshing(server, server.log_in()["refresh_token"])
        return sent, said_in(server.wanted(200, sent))

    def assert_again(self, server, sent, first):
        """The request gets the tokens of its reply again, which live no longer than before."""
        said = said_in(server.wanted(200, sent))
        self.assertLessEqual(said.pop("expires_in"), first["expires_in"])
        self.assertEqual(said | {"expires_in": first["expires_in"]}, first)
        return said

    def assert_reused(self, server, sent, first):
        """The request is a reuse, which ends the login."""
        status, reply = server.send(sent)
        self.assertEqual((status, said_in(reply)["error"]), GONE)
        self.assertFalse(server.is_active(first["access_token"]))

    def test_the_reply_again(self):
        server = self.started("--repeat", "10", load=b"")
        sent, first = self.refreshed(server)
        logged, vector = server.logged(), server.vector()
        reply = server.wanted(200, sent)
        for _ in range(3):
            self.assert_again(server, sent, first)
        self.assertEqual((server.logged(), server.vector()), (logged, vector))
        self.assertIn(b"\r\nContent-Length: %d\r\n" % len(body_of(reply)), reply)
        self.assertTrue(server.is_active(first["access_token"]))
        server.refresh(first["refresh_token"])

    def test_the_life_that_is_left(self):
        server = self.started("--repeat", "60")
        sent, first = self.refreshed(server)
        time.sleep(2)
        left = said_in(server.wanted(200, sent))["expires_in"]
        self.assertIn(first["expires_in"] - left, range(1, 30))

    def test_a_repeat_is_a_reuse_unless_the_option_is_on(self):
        for options in (), ("--repeat", "0"):
            server = self.started(*options)
            self.assert_reused(server, *self.refreshed(server))

    def test_a_repeat_that_is_too_late_is_a_reuse(self):
        server = self.started("--repeat", "1")
        sent, first = self.refreshed(server)
        time.sleep(2.5)
        self.assert_reused(server, sent, first)

    def test_a_repeat_with_other_parameters_is_a_reuse(self):
        server = self.started("--repeat", "60")
        for more in {"scope": "read"}, {"code": "x"}, {"redirect_uri": "x"}:
            token = server.log_in()["refresh_token"]
            fields = {"grant_type": "refresh_token", "refresh_token": token}
            first = server.form(server.token, fields, server.client)
            self.assert_reused(server, post(server.token, fields | more, server.client), first)

    def test_parameters_that_are_not_known(self):
        server = self.started("--repeat", "60")
        token = server.log_in()["refresh_token"]
        fields = {"grant_type": "refresh_token", "refresh_token": token}
        first = server.form(server.token, fields, server.client)
        more = {"x": "1"} | fields | {"resource": "y"}
        self.assert_again(server, post(server.token, more, server.client), first)

    def test_a_parameter_twice(self):
        server = self.started("--repeat", "60")
        token = server.log_in()["refresh_token"]
        body = "grant_type=refresh_token&refresh_token=" + token
        header = "Authorization: Basic " + server.client
        first = said_in(server.wanted(200, request("POST", "/token", body.encode(), header)))
        twice = (body + "&scope=read&scope=read").encode()
        status, reply = server.send(request("POST", "/token", twice, header))
        self.assertEqual((status, said_in(reply)["error"]), (400, "invalid_request"))
        self.assert_again(server, request("POST", "/token", body.encode(), header), first)

    def test_another_clients_repeat_is_refused_and_ends_no_login(self):
        server = self.started("--repeat", "60")
        token = server.log_in()["refresh_token"]
        fields = {"grant_type": "refresh_token", "refresh_token": token}
        first = server.form(server.token, fields, server.client)
        for client in server.resource, "eDp5":
            self.assertIn(server.send(post(server.token, fields, client))[0], (400, 401))
        self.assert_again(server, post(server.token, fields, server.client), first)

    def test_tokens_that_are_not_live(self):
        server = self.started("--repeat", "60")
        endings = {
            "revoked": lambda it: server.form(
                server.revoke, {"token": it["refresh_token"]}, server.client),
            "used": lambda it: server.refresh(it["refresh_token"]),
            "signed out": lambda it: server.form("/admin/signout", {"subject": "ann"}),
        }
        for name, end in endings.items():
            with self.subTest(name):
                sent, first = self.refreshed(server)
                end(first)
                status, reply = server.send(sent)
                self.assertEqual((status, said_in(reply)["error"]), GONE)

    def test_the_use_of_a_repeated_token(self):
        server = self.started("--repeat", "60")
        sent, first = self.refreshed(server)
        self.assert_again(server, sent, first)
        second = server.refresh(first["refresh_token"])
        self.assert_again(server, refreshing(server, first["refresh_token"]), second)

    def assert_all_again(self, between):
        """Three requests of one connection, with these bytes between them, get one reply."""
        server = self.started("--repeat", "60", "--keep", "60")
        sent = refreshing(server, server.log_in()["refresh_token"])
        last = sent.replace(b"\r\n", b"\r\nConnection: close\r\n", 1)
        with server.connect(between.join((sent, sent, last))) as peer:
            said = rest_of(peer)
        bodies = {it.split(b"}")[0] for it in said.split(b"{")[1:]}
        self.assertEqual((said.count(b"HTTP/1.1 200 OK"), len(bodies)), (3, 1))

    def test_in_one_connection(self):
        self.assert_all_again(b"")

    def test_behind_empty_lines(self):
        """Some clients send an empty line behind a body (RFC 9112, 2.2)."""
        for lines in b"\r\n", b"\n", b"\r\n\r\n":
            with self.subTest(lines):
                self.assert_all_again(lines)

    def test_forgotten_by_a_start(self):
        server = self.started("--repeat", "60", load=b"")
        sent, first = self.refreshed(server)
        after = self.enterContext(Running("--repeat", "60", load=server.logged(), region=2))
        after.enrol_as(server)
        self.assert_reused(after, sent, first)

    def test_a_client_that_keeps_its_refresh_token(self):
        """Each request gets an access token of its own."""
        server = self.enterContext(Running("--repeat", "60")).enrol(refresh="kept")
        sent = refreshing(server, server.log_in()["refresh_token"])
        said = [said_in(server.wanted(200, sent)) for _ in range(3)]
        self.assertEqual(len({it["access_token"] for it in said}), 3)
        for it in said:
            self.assertNotIn("refresh_token", it)
            self.assertTrue(server.is_active(it["access_token"]))

    def test_refreshes_of_kept_tokens_take_no_place(self):
        server = self.started("--repeat", "60")
        sent, first = self.refreshed(server)
        server.enrol(refresh="kept")
        kept = refreshing(server, server.log_in()["refresh_token"])
        for _ in range(MOST):
            server.wanted(200, kept)
        self.assert_again(server, sent, first)

    def test_the_oldest_goes(self):
        server = self.started("--repeat", "60")
        sent, first = self.refreshed(server)
        for _ in range(MOST - 1):
            self.refreshed(server)
        self.assert_again(server, sent, first)
        self.refreshed(server)
        self.assert_reused(server, sent, first)
