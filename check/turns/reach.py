"""reach: which paths are answered at which place: a port, a socket, an inner socket."""
import os
import re
import stat

from lib.asking import REDIRECT_TEXT, connect, request, status_of
from lib.command import GIVEN
from lib.server import Server
from shared import GET, SECONDS, Asking, post, rest_of

INNER = ("/admin/client", "/admin/retire", "/admin/secret", "/admin/consent", "/admin/withdraw",
         "/admin/signout", "/sync/vector", "/sync/pull", "/sync/push")
CLIENTS = "/authorize", "/token", "/introspect", "/revoke"
UNKNOWN = request("GET", "/nowhere")


class Reach(Asking):
    def served(self, *options):
        return self.enterContext(Server(GIVEN.program, *options))

    def at_both(self):
        return self.served("--socket", "{}/socket", "--inner", "{}/inner")

    def are_unknown(self, place):
        """Each inner path is as any that isn't there, byte for byte, whatever the request is."""
        wanted = self.said(place, UNKNOWN)
        self.assertEqual(status_of(wanted), 404)
        for path in INNER:
            for method in "GET", "POST":
                self.assertEqual(self.said(place, request(method, path, b"a=b")), wanted, path)

    def are_known(self, place, paths):
        for path in paths:
            said = self.said(place, request("POST", path, b"a=b"))
            self.assertNotIn(status_of(said), (404, None), path)

    def test_inner_paths_are_answered_at_the_inner_socket_alone(self):
        for options in ("--socket", "{}/socket"), ():
            with self.subTest(options):
                it = self.served(*options, "--inner", "{}/inner")
                self.are_unknown(it.place)
                self.are_known(it.place, CLIENTS)
                self.are_known(it.inner, CLIENTS)
                self.are_known(it.inner, [path for path in INNER if path != "/sync/vector"])
                self.assertEqual(it.ask("/sync/vector")[0], 200)
                self.assertEqual(it.errors(), "")

    def test_without_an_inner_socket_one_place_has_all(self):
        for options in ("--socket", "{}/socket"), ():
            with self.subTest(options):
                it = self.served(*options)
                self.are_known(it.place, [path for path in CLIENTS + INNER if "vector" not in path])
                self.assertEqual(it.ask("/sync/vector")[0], 200)

    def test_a_subject_counts_at_the_socket_of_clients(self):
        """A whole login there: X-Subject is believed, and the inner paths were asked inside."""
        it = self.at_both().enrol()
        tokens = it.log_in()
        self.assertTrue(it.is_active(tokens["access_token"]))
        said = self.said(it.socket, request("GET", it.authorize, b"", "X-Subject: bob"))
        self.assertIn(b"error=access_denied", said)
        said = self.said(it.socket, request("GET", it.authorize, b"", "X-Subject: ann"))
        self.assertIn(("Location: %s?code=" % REDIRECT_TEXT).encode(), said)

    def test_a_fact_of_one_place_holds_at_the_other(self):
        it = self.at_both().enrol()
        token = it.log_in()["access_token"]
        self.assertEqual(it.ask("/admin/signout", b"subject=ann")[0], 200)
        for place in it.socket, it.inner:
            said = self.said(place, post("/introspect", {"token": token}, it.resource))
            self.assertIn(b'{"active":false}', said)

    def test_a_kept_connection_reaches_no_further(self):
        """Behind a good request, and sent at once with one, inner paths are as unknown."""
        it = self.served("--socket", "{}/socket", "--inner", "{}/inner", "--keep", "60").enrol()
        good = post("/introspect", {"token": "x"}, it.resource)
        with connect(it.socket, good + good + GET + good, patience=SECONDS) as peer:
            said = rest_of(peer)
        self.assertEqual(re.findall(rb"HTTP/1.1 (\d+)", said), [b"200", b"200", b"404"])

    def test_other_spellings_are_unknown_too(self):
        it = self.at_both()
        for path in ("//sync/vector", "/./sync/vector", "/token/../sync/vector", "/%73ync/vector",
                     "/SYNC/vector", "/sync/vector/", "/sync/vector?a", "http://x/sync/vector"):
            with self.subTest(path):
                said = self.said(it.socket, request("GET", path))
                self.assertIn(status_of(said), (400, 404))

    def test_long_bodies_are_taken_inside_alone(self):
        """Outside 16,384 bytes are the most for any path."""
        it, sent = self.at_both(), request("POST", "/sync/push", bytes(40_000))
        self.assertEqual(status_of(self.said(it.inner, sent)), 400)
        self.assertEqual(status_of(self.said(it.socket, sent)), 404)
        form = request("POST", "/token", bytes(40_000),
                       "Content-Type: application/x-www-form-urlencoded")
        for place in it.socket, it.inner:
            self.assertEqual(status_of(self.said(place, form)), 413)

    def test_user_and_group_may_connect(self):
        """Whatever the umask is: in a folder of the front end's group, that is who reaches it."""
        for umask in 0o000, 0o022, 0o077:
            before = os.umask(umask)
            try:
                it = self.at_both()
            finally:
                os.umask(before)
            for place in it.socket, it.inner:
                mode = os.stat(place).st_mode
                self.assertTrue(stat.S_ISSOCK(mode))
                self.assertEqual(stat.S_IMODE(mode), 0o660)
