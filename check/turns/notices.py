"""notices: metadata and health are given if asked for, and redirects then name their issuer."""
import json
import re
import tempfile
import time
import urllib.parse

from lib import Broken
from lib.asking import REDIRECT_TEXT, body_of, connect, request, status_of
from lib.command import GIVEN
from lib.facts import dot
from lib.server import Server
from refusal import Lab
import server
from shared import SECONDS, Asking, Syncs, refreshing, rest_of

METADATA, HEALTH = "/.well-known/oauth-authorization-server", "/health"
METRICS = "/metrics"  # these options don't show them
ISSUER = "https://id.example:8443/one"
UNKNOWN = request("GET", "/nowhere")
MOST = 200  # allocations of a request


def written(issuer, methods=("plain", "S256")):
    """The metadata, whose names are in the order of their bytes."""
    secrets = ["client_secret_basic", "client_secret_post"]
    said = {
        "issuer": issuer,
        "authorization_endpoint": issuer + "/authorize",
        "token_endpoint": issuer + "/token",
        "introspection_endpoint": issuer + "/introspect",
        "revocation_endpoint": issuer + "/revoke",
        "response_types_supported": ["code"],
        "response_modes_supported": ["query"],
        "grant_types_supported": ["authorization_code", "refresh_token"],
        "token_endpoint_auth_methods_supported": secrets + ["none"],
        "introspection_endpoint_auth_methods_supported": secrets,
        "revocation_endpoint_auth_methods_supported": secrets + ["none"],
        "code_challenge_methods_supported": list(methods),
        "authorization_response_iss_parameter_supported": True,
    }
    return json.dumps(said, sort_keys=True, separators=(",", ":")).encode()


def query_of(reply):
    """The parameters of a redirect, in order."""
    location = re.search(rb"\r\nLocation: (\S+)\r\n", reply)[1].decode()
    assert location.startswith(REDIRECT_TEXT + "?"), location
    return urllib.parse.parse_qsl(location.partition("?")[2], strict_parsing=True)


class Notices(Asking):
    def test_metadata_has_the_issuer_and_the_challenge_methods(self):
        for options, methods in ((), ("plain", "S256")), (("--challenge", "S256"), ("S256",)), \
                (("--challenge", "all"), ("plain", "S256")):
            it = self.served("--issuer", ISSUER, *options)
            said = self.said(it.place, request("GET", METADATA))
            self.assertEqual(status_of(said), 200)
            self.assertIn(b"\r\nContent-Type: application/json\r\n", said)
            self.assertEqual(body_of(said), written(ISSUER, methods))
            self.assertEqual(self.said(it.place, request("GET", METADATA + "?x=y")), said)
            self.assertEqual(it.errors(), "")

    def test_other_methods_than_get_are_refused_with_405(self):
        it = self.served("--issuer", ISSUER, "--health")
        for path in METADATA, HEALTH:
            for method in "POST", "PUT", "HEAD":
                said = self.said(it.place, request(method, path))
                self.assertEqual(status_of(said), 405, method)
                self.assertIn(b"\r\nAllow: GET\r\n", said)

    def test_without_the_options(self):
        """Each path is as any that isn't there, byte for byte."""
        for options in (), ("--issuer", ISSUER), ("--health",):
            it = self.served(*options)
            wanted = self.said(it.place, UNKNOWN)
            self.assertEqual(status_of(wanted), 404)
            for path, option in (METADATA, "--issuer"), (HEALTH, "--health"):
                if option not in options:
                    for method in "GET", "POST", "PUT":
                        self.assertEqual(self.said(it.place, request(method, path)), wanted, path)
            self.assertEqual(self.said(it.place, request("GET", METRICS)), wanted)

    def test_paths_of_clients(self):
        """Beside an inner socket both are given at the outer one, and at the inner one."""
        it = self.enterContext(Server(GIVEN.program, "--socket", "{}/socket", "--inner", "{}/inner",
                                      "--issuer", ISSUER, "--health"))
        for place in it.socket, it.inner:
            for path in METADATA, HEALTH:
                self.assertEqual(status_of(self.said(place, request("GET", path))), 200)

    def test_other_spellings_of_the_paths_get_404(self):
        it = self.served("--issuer", ISSUER, "--health")
        for path in ("/.well-known/oauth-authorization-server/one", METADATA + "/", HEALTH + "/",
                     "/.well-known/openid-configuration", "/one" + METADATA, "/Health"):
            self.assertEqual(status_of(self.said(it.place, request("GET", path))), 404, path)

    def test_a_kept_connection(self):
        it = self.served("--issuer", ISSUER, "--health", "--keep", "60")
        sent = request("GET", METADATA) + request("GET", HEALTH)
        with connect(it.place, sent * 2 + UNKNOWN, patience=SECONDS) as peer:
            said = rest_of(peer)
        self.assertEqual(re.findall(rb"HTTP/1.1 (\d+)", said), [b"200"] * 4 + [b"404"])
        self.assertEqual(said.count(written(ISSUER)), 2)

    def test_redirects_name_the_issuer(self):
        """Behind all other parameters, in a reply with a code and in one with an error."""
        it = self.served("--issuer", ISSUER).enrol()
        for subject, name in ("ann", "code"), ("bob", "error"):
            sent = request("GET", it.authorize, b"", "X-Subject: " + subject)
            pairs = query_of(self.said(it.place, sent))
            self.assertEqual([it[0] for it in pairs], [name, "state", "iss"])
            self.assertEqual(pairs[-1][1], ISSUER)
        without = it.authorize.replace("&state=xyz", "").replace("response_type=code", "")
        pairs = query_of(self.said(it.place, request("GET", without, b"", "X-Subject: ann")))
        self.assertEqual(pairs, [("error", "invalid_request"), ("iss", ISSUER)])
        bad = self.said(it.place, request("GET", "/authorize?client_id=x"))
        self.assertEqual((status_of(bad), b"Location" in bad), (400, False))

    def test_redirects_without_an_issuer(self):
        it = self.served("--health").enrol()
        pairs = query_of(self.said(it.place, request("GET", it.authorize, b"", it.subject)))
        self.assertEqual([it[0] for it in pairs], ["code", "state"])

    def test_a_login_goes_on(self):
        it = self.served("--issuer", ISSUER).enrol()
        tokens = it.log_in()
        self.assertTrue(it.is_active(tokens["access_token"]))

    def test_health_of_a_new_service_is_ok(self):
        it = self.served("--health")
        said = self.said(it.place, request("GET", HEALTH))
        self.assertEqual((status_of(said), body_of(said)), (200, b'{"status":"ok"}'))

    def test_health_before_the_horizon(self):
        """A mark with a later horizon was taken in: clients get 503, and so does this."""
        it = self.served("--health", "--issuer", ISSUER).enrol()
        self.assertEqual(it.push([dot((9, 1))], int(time.time()) + 3600)[0], 200)
        said = self.said(it.place, request("GET", HEALTH))
        self.assertEqual((status_of(said), body_of(said)), (503, b'{"status":"before_horizon"}'))
        client = self.said(it.place, request("GET", it.authorize, b"", it.subject))
        self.assertEqual(status_of(client), 503)
        self.assertEqual(status_of(self.said(it.place, request("GET", METADATA))), 200)

    def test_health_of_a_sealed_service(self):
        syncs = self.enterContext(Syncs())
        it = self.served("--health", "--log", "{}/log", before=syncs.before).enrol()
        token = it.log_in()["refresh_token"]
        syncs.write("fail", syncs.read("ended") + 1)
        self.assertEqual(self.said(it.place, refreshing(it, token)), b"")
        self.assertEqual(it.errors(), "fault log\n")
        said = self.said(it.place, request("GET", HEALTH))
        self.assertEqual((status_of(said), body_of(said)),
                         (503, b'{"error":"temporarily_unavailable"}'))

    def test_out_of_memory(self):
        """Each allocation of a request is refused once: no reply, or the same reply."""
        folder = self.enterContext(tempfile.TemporaryDirectory())
        try:
            lab = Lab(GIVEN.program, folder)
        except Broken as why:
            self.skipTest(str(why))
        with server.Server(lab, 2, b"", "--health --issuer " + ISSUER) as it:
            it.enrol()
            error = request("GET", it.authorize, b"", "X-Subject: bob")
            for sent in request("GET", METADATA), request("GET", HEALTH), error:
                wanted, lost = it.ask(sent), 0
                for at in range(1, MOST):
                    it.refuse(at, 1)
                    said = it.ask(sent)
                    refused = it.refused()
                    it.refuse(0, 0)
                    self.assertIn(said, (b"", wanted))
                    lost += not said
                    if not refused:
                        break
                self.assertGreater(lost, 0)
                self.assertLess(at, MOST - 1)
